/* sacn-join: joins multicast groups on a network device, by sockets of its own, for as long as another process lives.

     sacn-join [--lists PORT] PID DEVICE GROUP..      GROUP: an IPv4 multicast address, as 239.255.0.1

   It wants no privilege and changes nothing of the machine: Linux hands what comes for a group that any socket has joined to every socket that hears
   at all addresses and that port. With --lists it also hears the universe discovery group at a port and joins the group of each universe
   that a source lists there, up to a bound (E1.31, 8; the group of universe u is 239.255.(u div 256).(u mod 256), E1.31, 9.3.1).

   Once all groups are joined it goes on behind its caller and ends with status 0; a group that can't be joined ends it with a line and status 4. What goes on
   are two processes: one that holds the groups, and one that says so where the first is ended while the process PID lives. */
#define _GNU_SOURCE
#include <arpa/inet.h>
#include <errno.h>
#include <net/if.h>
#include <netinet/in.h>
#include <poll.h>
#include <signal.h>
#include <stdbool.h>
#include <stdint.h>
#include <stdio.h>
#include <stdlib.h>
#include <string.h>
#include <sys/socket.h>
#include <sys/syscall.h>
#include <sys/wait.h>
#include <unistd.h>

enum { BAD_WORDS = 2, DEVICE_FAILED = 4, MOST_UNIVERSE = 63999 };
/* So many universes of lists are joined at most, since anybody may send a list, and twenty of them want a socket. */
enum { MOST_LISTED = 1024 };
/* Of a universe discovery packet: the root vector at 18, the framing vector at 40, the list's own length at 112 and vector at 114, its universes from 120. */
enum { ROOT_VECTOR = 18, FRAMING_VECTOR = 40, LIST_LENGTH = 112, LIST_VECTOR = 114, LIST = 120, MOST_DATAGRAM = 1144 };

static const char *device;
static unsigned number_of_device;
/* The socket that takes the next groups, and how many it has. */
static int holder = -1, held;
/* What became of each universe's group: not wanted yet, joined, or refused, which is told once and tried again at the next list. */
static enum { UNTRIED, JOINED, REFUSED } groups[MOST_UNIVERSE + 1];
static int listed;

static int fails(const char *what, const char *help) {
    fprintf(stderr, "sacn-join: %s on %s: %s%s\n", what, device, strerror(errno), help);
    return DEVICE_FAILED;
}

/* Joins a group. A socket takes a limited number of them (20 where nobody changed it): then the next socket begins. */
static bool join(struct in_addr group) {
    const struct ip_mreqn wanted = {.imr_multiaddr = group, .imr_ifindex = (int)number_of_device};
    for (;;) {
        if (holder < 0 && (holder = socket(AF_INET, SOCK_DGRAM | SOCK_CLOEXEC, 0)) < 0) return false;
        if (!setsockopt(holder, IPPROTO_IP, IP_ADD_MEMBERSHIP, &wanted, sizeof wanted)) return held++, true;
        if (errno == EADDRINUSE) return true;
        if (errno != ENOBUFS || !held) return false; /* (one that takes not even a first group isn't full) */
        holder = -1, held = 0; /* (the full one stays open) */
    }
}

static uint32_t at(const uint8_t *octets, int place, int count) {
    uint32_t value = 0;
    for (int i = 0; i < count; i++) value = value << 8 | octets[place + i];
    return value;
}

/* The group of a universe that is listed. */
static void join_universe(uint32_t universe) {
    static bool is_told;
    if (universe < 1 || universe > MOST_UNIVERSE || groups[universe] == JOINED) return;
    if (listed >= MOST_LISTED) {
        if (!is_told) fprintf(stderr, "sacn: sources list more than %d universes on %s: no more of them are joined; name those that you want by --universe\n", MOST_LISTED, device);
        is_told = true;
        return;
    }
    if (join((struct in_addr){htonl(0xefff0000u | universe)})) {
        groups[universe] = JOINED, listed++;
        return;
    }
    if (groups[universe] == UNTRIED) fprintf(stderr, "sacn: universe %u isn't joined on %s: %s\n", universe, device, strerror(errno));
    groups[universe] = REFUSED;
}

static void join_listed(const uint8_t *octets, ssize_t count) {
    if (count < LIST || memcmp(octets + 4, "ASC-E1.17\0\0", 12) || at(octets, ROOT_VECTOR, 4) != 8 || at(octets, FRAMING_VECTOR, 4) != 2 ||
        at(octets, LIST_VECTOR, 4) != 1 || (ssize_t)(at(octets, LIST_LENGTH, 2) & 0x0fff) != count - LIST_LENGTH)
        return;
    for (int place = LIST; place + 2 <= count; place += 2) join_universe(at(octets, place, 2));
}

/* A socket that hears the discovery group alone, so that it takes nothing of what is sent to this machine. */
static int lists(uint16_t port) {
    const struct sockaddr_in group = {.sin_family = AF_INET, .sin_port = htons(port), .sin_addr = {htonl(0xeffffad6u)}};
    const int on = 1;
    int heard = socket(AF_INET, SOCK_DGRAM | SOCK_CLOEXEC | SOCK_NONBLOCK, 0);
    if (heard < 0 || setsockopt(heard, SOL_SOCKET, SO_REUSEADDR, &on, sizeof on) || bind(heard, (const struct sockaddr *)&group, sizeof group)) return -1;
    return heard;
}

static int hold(int life, int heard) {
    struct pollfd waits[2] = {{.fd = life, .events = POLLIN}, {.fd = heard, .events = POLLIN}};
    while (poll(waits, 2, -1) > 0 || errno == EINTR) {
        uint8_t octets[MOST_DATAGRAM];
        if (waits[0].revents) return 0;
        for (ssize_t count; heard >= 0 && (count = recv(heard, octets, sizeof octets, 0)) >= 0;) join_listed(octets, count);
    }
    return DEVICE_FAILED;
}

/* What goes on: it ends with the process, or says that the groups are gone. */
static int watch_over(int life, int heard) {
    pid_t child = fork();
    if (child == 0) _exit(hold(life, heard));
    int status = 0;
    struct pollfd ended = {.fd = life, .events = POLLIN};
    while (child > 0 && waitpid(child, &status, 0) < 0 && errno == EINTR) continue;
    if (poll(&ended, 1, 0) == 0)
        fprintf(stderr, "sacn: what joined the groups on %s was ended: what comes by multicast is no longer heard; start this command again\n", device);
    return 0;
}

int main(int count, char **words) {
    const bool has_lists = count > 2 && !strcmp(words[1], "--lists");
    char **rest = words + (has_lists ? 3 : 1), **end = words + count;
    if (end - rest < 2) return fprintf(stderr, "usage: sacn-join [--lists PORT] PID DEVICE GROUP..\n"), BAD_WORDS;
    int life = (int)syscall(SYS_pidfd_open, (pid_t)atol(rest[0]), 0), heard = -1;
    device = rest[1];
    if (life < 0) return fails("the process", ""), DEVICE_FAILED;
    if (!(number_of_device = if_nametoindex(device))) return fails("no groups", ": `ip -brief link` lists this machine's devices");
    for (char **word = rest + 2; word < end; word++) {
        struct in_addr group;
        if (!inet_aton(*word, &group) || !IN_MULTICAST(ntohl(group.s_addr))) return fprintf(stderr, "sacn-join: %s is no group\n", *word), BAD_WORDS;
        if (!join(group)) return fails(*word, ": is the device up, and does it take multicast?");
        if (ntohl(group.s_addr) >> 16 == 0xefff && (ntohl(group.s_addr) & 0xffff) <= MOST_UNIVERSE) groups[ntohl(group.s_addr) & 0xffff] = JOINED;
    }
    if (has_lists && (heard = lists((uint16_t)atoi(words[2]))) < 0) return fails("the discovery group", "");
    for (int signals[] = {SIGINT, SIGHUP, SIGPIPE}, i = 0; i < 3; i++) signal(signals[i], SIG_IGN);
    fflush(NULL);
    switch (fork()) {
        case -1: return fails("no process", "");
        case 0: setsid(); return watch_over(life, heard);
        default: return 0;
    }
}
