// Preloaded into a program under test: each reading of its monotonic clock is later than the last one by as many milliseconds as the
// variable CLOCK_STEP has. So work on few bytes takes long by that clock. Other clocks stay as they are. The kernel is asked by itself:
// a program that was made without proof reads a clock before the functions of the C library can be looked up.
#define _GNU_SOURCE
#include <stdlib.h>
#include <sys/syscall.h>
#include <time.h>
#include <unistd.h>

int clock_gettime(clockid_t clock, struct timespec *time) {
    static long long millis = 1000000;
    const char *step = clock == CLOCK_MONOTONIC ? getenv("CLOCK_STEP") : NULL;
    if (!step) return (int)syscall(SYS_clock_gettime, clock, time);
    millis += atoll(step);
    *time = (struct timespec){millis / 1000, millis % 1000 * 1000000};
    return 0;
}
