/* Preloaded into a program, it gives it the clock that the file named by CLOCK says: the nanoseconds since 1970, and
   those of the clock that no one sets. */
#include <fcntl.h>
#include <stdlib.h>
#include <sys/syscall.h>
#include <time.h>
#include <unistd.h>

int clock_gettime(clockid_t clock, struct timespec *time) {
    const char *file = getenv("CLOCK");
    char text[64], *behind;
    ssize_t octets = -1;
    int said = -1;
    if (file && (clock == CLOCK_REALTIME || clock == CLOCK_MONOTONIC))
        said = open(file, O_RDONLY | O_CLOEXEC);
    if (said >= 0) {
        octets = read(said, text, sizeof text - 1);
        close(said);
    }
    if (octets <= 0)
        return (int)syscall(SYS_clock_gettime, clock, time);
    text[octets] = 0;
    long long since_1970 = strtoll(text, &behind, 10), passed = strtoll(behind, NULL, 10);
    long long now = clock == CLOCK_REALTIME ? since_1970 : passed;
    time->tv_sec = now / 1000000000;
    time->tv_nsec = now % 1000000000;
    return 0;
}
