// Preloaded into a program under test: refuses its REFUSED_ALLOCATION-th allocation, counted from 1, and with
// TELL_ALLOCATIONS set writes how many there were to standard error at the end.
#include <errno.h>
#include <stdio.h>
#include <stdlib.h>
#include <unistd.h>

extern void *__libc_malloc(size_t);
extern void *__libc_realloc(void *, size_t);

static long count = 0;
static long refused = 0;

static int is_refused(void) {
    if (count == 0) {
        const char *text = getenv("REFUSED_ALLOCATION");
        refused = text ? atol(text) : -1;
    }
    count += 1;
    if (count != refused) {
        return 0;
    }
    errno = ENOMEM;
    return 1;
}

void *malloc(size_t size) { return is_refused() ? NULL : __libc_malloc(size); }

void *realloc(void *old, size_t size) { return is_refused() ? NULL : __libc_realloc(old, size); }

__attribute__((destructor)) static void tell(void) {
    char line[32];
    if (getenv("TELL_ALLOCATIONS")) {
        int length = snprintf(line, sizeof line, "%ld\n", count);
        if (write(2, line, (size_t)length) < 0) {
            _exit(3);
        }
    }
}
