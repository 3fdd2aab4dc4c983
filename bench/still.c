/* Stands between the program and its machine for bench/counts (LD_PRELOAD), so that each run is the same: a clock that goes on only while the program waits, a terminal
   at standard output, a socket that hears the packets of a file in turn, and callers that ask a page for something, one after another. No port is taken.

   STILL_PACKETS names the file, of packets of 638 octets, of which STILL_TOGETHER come at a moment, or else one; STILL_ASKED is what each caller sends,
   STILL_CALLERS how many there are. With STILL_PIPED standard output is no terminal. */
#define _GNU_SOURCE
#include <arpa/inet.h>
#include <errno.h>
/* (the header says of poll that it only writes what it is asked) */
#define poll poll_of_the_header
#include <poll.h>
#undef poll
#include <stdint.h>
#include <stdio.h>
#include <stdlib.h>
#include <string.h>
#include <sys/epoll.h>
#include <sys/socket.h>
#include <sys/syscall.h>
#include <time.h>
#include <unistd.h>

enum { OCTETS = 638, MOST = 256, GAP = 5 };

/* ---- the clock and the terminal ---- */

static uint64_t moment;

int clock_gettime(clockid_t clock, struct timespec *at) {
    (void)clock;
    at->tv_sec = (time_t)(1000 + moment / 1000), at->tv_nsec = (long)(moment % 1000 * 1000000);
    return 0;
}

int isatty(int file) { return file == 1 && !getenv("STILL_PIPED"); }

/* ---- the socket that hears ---- */

static uint8_t packets[MOST][OCTETS];
static size_t count;
static uint64_t heard, together = 1;
static int bound = -1;
static struct sockaddr_in address;

static uint64_t next_due(void) { return count ? (heard / together + 1) * GAP : UINT64_MAX; }

int bind(int file, const struct sockaddr *at, socklen_t length) {
    if (length != sizeof address) return errno = EINVAL, -1;
    return memcpy(&address, at, sizeof address), bound = file, 0;
}

int getsockname(int file, struct sockaddr *at, socklen_t *length) {
    (void)file;
    if (*length < sizeof address) return errno = EINVAL, -1;
    return memcpy(at, &address, sizeof address), *length = sizeof address, 0;
}

ssize_t recvfrom(int file, void *octets, size_t room, int flags, struct sockaddr *from, socklen_t *length) {
    (void)flags;
    if (file != bound || moment < next_due() || room < OCTETS) return errno = EAGAIN, -1;
    uint8_t *packet = packets[heard % count];
    packet[111] = (uint8_t)(heard / count), packet[126 + heard / count % 512] ^= 1;
    heard++;
    memcpy(octets, packet, OCTETS);
    struct sockaddr_in sender = {.sin_family = AF_INET, .sin_port = htons(5000), .sin_addr.s_addr = htonl(0x0a000001)};
    if (from && length && *length >= sizeof sender) memcpy(from, &sender, sizeof sender), *length = sizeof sender;
    return OCTETS;
}

/* ---- the callers: each calls, asks, and hangs up once it was answered ---- */

static const char *asked;
static uint64_t callers;
static enum { CALLS, IS_TAKEN, ASKS, WAITS, HANGS_UP } step;
static int turns = -1, caller = -1, is_answered;
static epoll_data_t of_door, of_caller;

static int has_event(void) { return step == CALLS ? callers > 0 : step != WAITS; }

int listen(int file, int backlog) { return (void)file, (void)backlog, 0; }

int epoll_ctl(int poll, int order, int file, struct epoll_event *event) {
    turns = poll;
    if (order == EPOLL_CTL_ADD) *(file == bound ? &of_door : &of_caller) = event->data;
    return 0;
}

int epoll_wait(int poll, struct epoll_event *events, int room, int timeout) {
    (void)poll, (void)room, (void)timeout;
    if (!has_event()) return 0;
    if (step == CALLS) return events[0] = (struct epoll_event){EPOLLIN, of_door}, 1;
    if (step == IS_TAKEN) step = ASKS;
    events[0] = (struct epoll_event){step == ASKS ? EPOLLIN | EPOLLOUT : EPOLLIN | EPOLLOUT | EPOLLHUP | EPOLLRDHUP, of_caller};
    return 1;
}

int accept4(int file, struct sockaddr *from, socklen_t *length, int flags) {
    (void)file, (void)flags;
    if (step != CALLS || !callers) return errno = EAGAIN, -1;
    struct sockaddr_in at = {.sin_family = AF_INET, .sin_port = htons(40000), .sin_addr.s_addr = htonl(INADDR_LOOPBACK)};
    if (from && length && *length >= sizeof at) memcpy(from, &at, sizeof at), *length = sizeof at;
    step = IS_TAKEN, is_answered = 0, callers--;
    return caller = socket(AF_INET, SOCK_STREAM | SOCK_CLOEXEC, 0);
}

ssize_t recv(int file, void *octets, size_t room, int flags) {
    (void)flags;
    if (file == caller && step == HANGS_UP) return step = CALLS, 0;
    if (file != caller || step != ASKS || room < strlen(asked)) return errno = EAGAIN, -1;
    step = WAITS;
    return memcpy(octets, asked, strlen(asked)), (ssize_t)strlen(asked);
}

/* (an answer that isn't what was asked for ends the run) */
ssize_t send(int file, const void *octets, size_t length, int flags) {
    (void)file, (void)flags;
    static const char well[] = "HTTP/1.1 200 ";
    if (!is_answered && (length < sizeof well - 1 || memcmp(octets, well, sizeof well - 1))) abort();
    is_answered = 1;
    return (ssize_t)length;
}

int shutdown(int file, int how) {
    if (file == caller && step == WAITS && is_answered) step = HANGS_UP;
    return (void)how, 0;
}

/* ---- waiting ---- */

__attribute__((constructor)) static void begin(void) {
    const char *name = getenv("STILL_PACKETS"), *number = getenv("STILL_CALLERS"), *most = getenv("STILL_TOGETHER");
    FILE *file = name ? fopen(name, "rb") : NULL;
    if (file) count = fread(packets, OCTETS, MOST, file), fclose(file);
    if (most) together = strtoull(most, NULL, 10);
    asked = getenv("STILL_ASKED");
    callers = asked && number ? strtoull(number, NULL, 10) : 0;
}

/* A wait for packets or callers ends with the next one, or when its time is over; the clock is then there. Others are the machine's. */
int poll(struct pollfd *files, nfds_t files_count, int timeout) {
    struct pollfd *hears = NULL, *calls = NULL;
    for (nfds_t i = 0; i < files_count; i++) {
        if (bound >= 0 && files[i].fd == bound) hears = &files[i];
        if (turns >= 0 && files[i].fd == turns) calls = &files[i];
    }
    if (!hears && !calls) return (int)syscall(SYS_poll, files, files_count, timeout);
    for (nfds_t i = 0; i < files_count; i++) files[i].revents = 0;
    if (calls && has_event()) return calls->revents = POLLIN, 1;
    uint64_t end = timeout < 0 ? UINT64_MAX : moment + (uint64_t)timeout, due = hears ? next_due() : UINT64_MAX;
    if (end < due) return moment = end, 0;
    if (moment < due) moment = due;
    return hears ? hears->revents = POLLIN, 1 : 0;
}
