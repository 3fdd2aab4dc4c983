/* Shows a universe that comes by multicast: prints '1 MILLISECONDS FRAME' for each frame of its port 1 that changed.
   usage: receive UNIVERSE [SECONDS [UDP-PORT [ADDRESS OF THE DEVICE TO JOIN ON]]] */
#include <arpa/inet.h>
#include <poll.h>
#include <sacn.h>
#include <stdio.h>
#include <stdlib.h>
#include <string.h>
#include <time.h>

static uint64_t clock_now(void) {
    struct timespec at;
    clock_gettime(CLOCK_MONOTONIC, &at);
    return (uint64_t)at.tv_sec * 1000 + (uint64_t)at.tv_nsec / 1000000;
}

int main(int count, char **words) {
    const long named = strtol(count > 1 ? words[1] : "1", NULL, 10);
    const uint16_t universe = named > 0 && named <= UINT16_MAX ? (uint16_t)named : 0;
    struct sacn_node node = {0};
    const int status = sacn_node_of_universes(&node, &universe, 1);
    if (status) return fprintf(stderr, "universe %ld: %s\n", named, sacn_status_text(SACN_FAMILY_STATUS, status)), 3;

    const struct sockaddr_in own = {.sin_family = AF_INET, .sin_port = htons((uint16_t)atoi(count > 3 ? words[3] : "5568"))};
    struct ip_mreq group = {.imr_interface = {inet_addr(count > 4 ? words[4] : "0.0.0.0")}};
    sacn_multicast_group(universe, (uint8_t *)&group.imr_multiaddr);
    struct pollfd hears = {.fd = socket(AF_INET, SOCK_DGRAM, 0), .events = POLLIN};
    const int yes = 1;
    setsockopt(hears.fd, SOL_SOCKET, SO_REUSEADDR, &yes, sizeof yes);
    if (bind(hears.fd, (const struct sockaddr *)&own, sizeof own)) return perror("bind"), 4;
    if (setsockopt(hears.fd, IPPROTO_IP, IP_ADD_MEMBERSHIP, &group, sizeof group)) return perror("join"), 4;

    const uint64_t start = clock_now(), end = count > 2 ? start + 1000 * strtoull(words[2], NULL, 10) : UINT64_MAX;
    uint8_t octets[2048], taken, frame[SACN_FRAME_OCTETS], shown[SACN_FRAME_OCTETS] = {0};
    for (uint64_t now = start, wakes; now < end; now = clock_now()) {
        if (!sacn_node_frame(&node, now, 1, frame) && memcmp(frame, shown, sizeof frame)) {
            memcpy(shown, frame, sizeof frame);
            printf("1 %llu ", (unsigned long long)(now - start));
            for (size_t at = 0; at < sizeof frame; at++) printf("%02x", frame[at]);
            puts("");
            fflush(stdout);
        }
        sacn_node_wakes(&node, &wakes);
        const int wait = wakes > now + 1000 ? 1000 : wakes > now ? (int)(wakes - now) : 0;
        const ssize_t got = poll(&hears, 1, wait) > 0 ? recv(hears.fd, octets, sizeof octets, 0) : -1;
        if (got >= 0) sacn_node_take(&node, clock_now(), octets, (size_t)got, &taken);
    }
    return sacn_node_free(&node);
}
