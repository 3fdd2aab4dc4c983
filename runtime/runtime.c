/* What the program asks of C beside the C library, for processors that the kit brings no archives for (aarch64); its memory stands in heap.c.

   Each function's contract is the kit's, as its crates `os` and `libc` state it: nothing proves that what stands here keeps it, so tests/c/runtime.c tries each.
   The kit's own archives stand in its place on x86-64. */
#include <errno.h>
#include <stdbool.h>
#include <stddef.h>
#include <stdint.h>
#include <stdlib.h>
#include <string.h>
#include <sys/epoll.h>
#include <sys/ioctl.h>

extern char **environ;

int32_t rattle_errno(void) { return errno; }

void rattle_set_errno(int32_t error) { errno = error; }

static int word_count;
static char **words;

/* (glibc hands the words of the command line to each constructor too) */
__attribute__((constructor)) static void keep_words(int count, char **given) {
    word_count = count;
    words = given;
}

/* Puts a text at the start of a buffer: its length, -1 where there is none, or -2 where it doesn't fit, and then the buffer is full. */
static ptrdiff_t put(const char *text, unsigned char *buffer, size_t room) {
    if (!text) return -1;
    size_t length = strlen(text);
    memcpy(buffer, text, length < room ? length : room);
    return length > room ? -2 : (ptrdiff_t)length;
}

/* How many words the command line has, the program's name among them. */
size_t rattle_arg_count(void) { return (size_t)word_count; }

/* The word of this number, from 0 on. */
ptrdiff_t rattle_arg(size_t number, unsigned char *buffer, size_t room) { return put(number < (size_t)word_count ? words[number] : NULL, buffer, room); }

/* The value of a variable of the environment, whose name ends at a 0. */
ptrdiff_t rattle_env(const char *name, unsigned char *buffer, size_t room) { return put(getenv(name), buffer, room); }

/* The entry of this number in the environment, as NAME=VALUE. */
ptrdiff_t rattle_env_at(size_t number, unsigned char *buffer, size_t room) {
    for (size_t i = 0; environ && environ[i]; i++)
        if (i == number) return put(environ[i], buffer, room);
    return -1;
}

/* Sets or clears O_NONBLOCK of what a descriptor is open on: 0, or -1. */
int32_t rattle_set_nonblocking(int32_t descriptor, bool is_on) {
    int value = is_on;
    return ioctl(descriptor, FIONBIO, &value);
}

/* Linux's epoll_ctl with the fields of its entry as arguments. */
int32_t rattle_epoll_ctl(int32_t epoll, int32_t operation, int32_t descriptor, uint32_t events, uint64_t data) {
    struct epoll_event entry = {.events = events, .data.u64 = data};
    return epoll_ctl(epoll, operation, descriptor, &entry);
}

/* An entry as the kit lays it out, which Linux packs on x86-64 alone. */
struct event {
    uint32_t events;
    uint64_t data;
};

enum { MOST_EVENTS = 256 };

/* Linux's epoll_wait: puts entries at the start of a list: how many, or -1. It may put fewer than there is room for: those that are left come with the next call. */
ptrdiff_t rattle_epoll_wait(int32_t epoll, struct event *found, size_t room, int32_t timeout) {
    struct epoll_event entries[MOST_EVENTS];
    int count = epoll_wait(epoll, entries, room < MOST_EVENTS ? (int)room : MOST_EVENTS, timeout);
    for (int i = 0; i < count; i++) found[i] = (struct event){entries[i].events, entries[i].data.u64};
    return count;
}
