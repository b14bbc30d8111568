// Preloaded into a program under test: its clock of the day reads the seconds since 1970 that the file named CLOCK_FILE has, in
// decimal digits, each time anew. Other clocks stay as they are. The kernel is asked by itself: a program that was made without
// proof reads a clock before the functions of the C library can be looked up.
#define _GNU_SOURCE
#include <fcntl.h>
#include <stdlib.h>
#include <sys/syscall.h>
#include <time.h>
#include <unistd.h>

int clock_gettime(clockid_t clock, struct timespec *time) {
    char text[32] = {0};
    const char *name = clock == CLOCK_REALTIME ? getenv("CLOCK_FILE") : NULL;
    if (!name) return (int)syscall(SYS_clock_gettime, clock, time);
    int file = (int)syscall(SYS_openat, AT_FDCWD, name, O_RDONLY);
    if (file < 0 || syscall(SYS_read, file, text, sizeof text - 1) < 1) _exit(3);
    syscall(SYS_close, file);
    *time = (struct timespec){atol(text), 0};
    return 0;
}

time_t time(time_t *out) {
    struct timespec now;
    clock_gettime(CLOCK_REALTIME, &now);
    if (out) *out = now.tv_sec;
    return now.tv_sec;
}
