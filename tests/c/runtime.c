/* Tries each function of runtime/heap.c and runtime/runtime.c against what is asked of it. Started as `runtime one "" three` with FIRST=value in the environment.
   It prints the line of the first that isn't so, and then ends with status 1. */
#include "../../runtime/heap.c"
#include "../../runtime/runtime.c"
#include <fcntl.h>
#include <stdio.h>
#include <unistd.h>

#define WANT(it) \
    do \
        if (!(it)) return printf("line %d: %s\n", __LINE__, #it), 1; \
    while (0)

static int memory(void) {
    struct tried block = rattle_alloc(0, 16);
    WANT(block.is_there && block.place && (uintptr_t)block.place % 16 == 0);
    rattle_dealloc(block.place);
    block = rattle_alloc(100, 16);
    WANT(block.is_there && (uintptr_t)block.place % 16 == 0);
    memset(block.place, 7, 100);
    struct tried failed = rattle_realloc(block.place, 100, (size_t)PTRDIFF_MAX, 16);
    WANT(!failed.is_there && failed.place);
    block = rattle_realloc(block.place, 100, 100000, 16);
    WANT(block.is_there);
    for (int i = 0; i < 100; i++) WANT(((char *)block.place)[i] == 7);
    block = rattle_realloc(block.place, 0, 0, 16);
    WANT(block.is_there && block.place);
    rattle_dealloc(block.place);
    failed = rattle_alloc((size_t)PTRDIFF_MAX, 16);
    WANT(!failed.is_there && failed.place);
    return 0;
}

static int texts(void) {
    unsigned char buffer[8] = "........";
    WANT(rattle_arg_count() == 4);
    WANT(rattle_arg(1, buffer, 8) == 3 && !memcmp(buffer, "one.....", 8));
    WANT(rattle_arg(2, buffer, 8) == 0);
    WANT(rattle_arg(3, buffer, 5) == 5 && !memcmp(buffer, "three", 5));
    WANT(rattle_arg(3, buffer, 4) == -2 && !memcmp(buffer, "three", 4));
    WANT(rattle_arg(4, buffer, 8) == -1 && rattle_arg((size_t)-1, buffer, 8) == -1);
    WANT(rattle_env("FIRST", buffer, 8) == 5 && !memcmp(buffer, "value", 5));
    memset(buffer, '.', 8);
    WANT(rattle_env("FIRST", buffer, 2) == -2 && !memcmp(buffer, "va......", 8));
    WANT(rattle_env("SECOND", buffer, 8) == -1);
    WANT(setenv("EMPTY", "", 1) == 0 && rattle_env("EMPTY", buffer, 8) == 0);
    unsigned char entry[4096];
    size_t number = 0, found = 0;
    for (ptrdiff_t length; (length = rattle_env_at(number, entry, sizeof entry)) != -1; number++) found += length == 11 && !memcmp(entry, "FIRST=value", 11);
    WANT(found == 1 && rattle_env_at(number + 1, entry, sizeof entry) == -1);
    return 0;
}

static int descriptors(void) {
    int ends[2];
    struct event found[2] = {{9, 9}, {9, 9}};
    WANT(!pipe(ends));
    WANT(!rattle_set_nonblocking(ends[0], true) && (fcntl(ends[0], F_GETFL) & O_NONBLOCK));
    WANT(!rattle_set_nonblocking(ends[0], false) && !(fcntl(ends[0], F_GETFL) & O_NONBLOCK));
    rattle_set_errno(0);
    WANT(rattle_set_nonblocking(-1, true) == -1 && rattle_errno() == EBADF);
    rattle_set_errno(ENOMEM);
    WANT(rattle_errno() == ENOMEM && errno == ENOMEM);
    int epoll = epoll_create1(0);
    WANT(!rattle_epoll_ctl(epoll, EPOLL_CTL_ADD, ends[0], EPOLLIN, 0x1122334455667788u));
    WANT(!rattle_epoll_ctl(epoll, EPOLL_CTL_ADD, ends[1], EPOLLOUT, 2));
    WANT(rattle_epoll_ctl(epoll, EPOLL_CTL_ADD, ends[0], EPOLLIN, 1) == -1 && errno == EEXIST);
    WANT(rattle_epoll_wait(epoll, found, 2, 0) == 1 && found[0].events == EPOLLOUT && found[0].data == 2 && found[1].data == 9);
    WANT(write(ends[1], "x", 1) == 1 && rattle_epoll_wait(epoll, found, 2, 1000) == 2);
    WANT(found[0].data + found[1].data == 0x112233445566778au);
    WANT(rattle_epoll_wait(epoll, found, 1, 0) == 1);
    WANT(!rattle_epoll_ctl(epoll, EPOLL_CTL_DEL, ends[1], 0, 0) && rattle_epoll_wait(epoll, found, 2, 0) == 1);
    WANT(rattle_epoll_wait(-1, found, 2, 0) == -1 && errno == EBADF);
    return 0;
}

int main(void) { return memory() || texts() || descriptors(); }
