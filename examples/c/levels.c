/* Sends levels of a universe by multicast, slot 1 full, and ends it: levels UNIVERSE [SECONDS [UDP-PORT [OWN ADDRESS]]] */
#include <arpa/inet.h>
#include <sacn.h>
#include <stdlib.h>
#include <time.h>

int main(int count, char **words) {
    const uint8_t cid[16] = {0x5f, 0xcd, 0x1d, 0x5c, 0x2f, 0x0b, 0x4c, 0x3a, 0x9f, 0x0e, 0x6f, 0x9a, 0x5b, 0x6d, 0x7e, 0x14}, slots[] = {255};
    struct sockaddr_in own = {.sin_family = AF_INET, .sin_addr = {inet_addr(count > 4 ? words[4] : "0.0.0.0")}};
    struct sockaddr_in to = {.sin_family = AF_INET, .sin_port = htons((uint16_t)atoi(count > 3 ? words[3] : "5568"))};
    uint16_t universe = (uint16_t)atoi(count > 1 ? words[1] : "1");
    struct sacn_source_handle source = {0};
    const int out = socket(AF_INET, SOCK_DGRAM, 0);
    if (bind(out, (struct sockaddr *)&own, sizeof own) || sacn_source_new(&source, cid, "levels.c", 8, 100, 1, 0)) return 4;
    if (sacn_source_add(&source, universe) || sacn_source_levels(&source, universe, slots, sizeof slots)) return 5;
    struct sacn_universe told = {0};
    for (uint64_t end = 0, is_ending = 0; told.state != SACN_UNIVERSE_STOPPED; nanosleep(&(struct timespec){.tv_nsec = 2000000}, NULL)) {
        struct timespec at;
        clock_gettime(CLOCK_MONOTONIC, &at);
        const uint64_t now = (uint64_t)at.tv_sec * 1000 + (uint64_t)at.tv_nsec / 1000000;
        if (!end) end = now + 1000 * strtoull(count > 2 ? words[2] : "5", NULL, 10);
        if (now >= end && !is_ending++) sacn_source_end_all(&source);
        uint8_t octets[SACN_MAX_DATAGRAM];
        for (size_t length; !sacn_source_poll(&source, now, octets, &length, &universe) && length; sacn_source_universe(&source, 0, &told)) {
            sacn_multicast_group(universe ? universe : SACN_DISCOVERY_UNIVERSE, (uint8_t *)&to.sin_addr);
            sendto(out, octets, length, 0, (struct sockaddr *)&to, sizeof to);
        }
    }
    return sacn_source_free(&source);
}
