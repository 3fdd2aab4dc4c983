/* Plays a show to a UDP port of this machine: goes to its first cue, and ends its universes after so many milliseconds.

   send SHOW UDP-PORT MILLISECONDS     a show as docs/FILES.md has it */
#include <arpa/inet.h>
#include <sacn.h>
#include <stdio.h>
#include <stdlib.h>
#include <sys/socket.h>
#include <time.h>

static uint64_t now(void) {
    struct timespec at;
    clock_gettime(CLOCK_MONOTONIC, &at);
    return (uint64_t)at.tv_sec * 1000 + (uint64_t)at.tv_nsec / 1000000;
}

int main(int count, char **words) {
    static char text[1 << 20];
    FILE *file = count == 4 ? fopen(words[1], "rb") : NULL;
    if (!file) return 2;
    size_t length = fread(text, 1, sizeof text, file);
    fclose(file);

    struct sacn_console console = {0};
    int status = sacn_console_new(&console, text, length, 0);
    if (status) return fprintf(stderr, "refused %d\n", status), 3;
    int sends = socket(AF_INET, SOCK_DGRAM, 0);
    struct sockaddr_in to = {.sin_family = AF_INET, .sin_port = htons((uint16_t)atoi(words[2]))};
    to.sin_addr.s_addr = htonl(INADDR_LOOPBACK);

    uint64_t start = now(), end = strtoull(words[3], NULL, 10);
    unsigned long sent = 0;
    int universe_ends = 0;
    sacn_console_command(&console, 0, SACN_GO, 0, 0);
    // (after its end a universe is told three times that it has ended)
    for (uint64_t moment = 0; moment < end + 200; moment = now() - start) {
        uint8_t octets[SACN_MAX_DATAGRAM];
        size_t octet_count;
        if (moment >= end && !universe_ends) {
            universe_ends = 1;
            struct sacn_universe at;
            for (size_t place = 0; !sacn_console_universe(&console, place, &at); place++) sacn_console_command(&console, moment, SACN_END_UNIVERSE, at.universe, 0);
        }
        while (!sacn_console_poll(&console, moment, octets, &octet_count) && octet_count) {
            sent += sendto(sends, octets, octet_count, 0, (struct sockaddr *)&to, sizeof to) == (ssize_t)octet_count;
        }
        nanosleep(&(struct timespec){.tv_nsec = 2000000}, NULL);
    }
    printf("sent %lu\n", sent);
    sacn_console_free(&console);
    return 0;
}
