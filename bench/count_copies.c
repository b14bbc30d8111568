// Preloaded into a program: counts the bytes that it copies by memcpy and memmove, and with COPIED set writes their number to the file
// of that name at the program's end.
#include <stddef.h>
#include <stdio.h>
#include <stdlib.h>

static unsigned long long copied = 0;

static void *moved(void *to, const void *from, size_t size) {
    void *at = to;
    const void *of = from;
    size_t left = size;
    copied += size;
    if ((const char *)from < (char *)to && (char *)to < (const char *)from + size) {
        at = (char *)to + size;
        of = (const char *)from + size;
        __asm__ volatile("std\n\tsub $1, %0\n\tsub $1, %1\n\trep movsb\n\tcld" : "+D"(at), "+S"(of), "+c"(left)::"memory");
    } else {
        __asm__ volatile("rep movsb" : "+D"(at), "+S"(of), "+c"(left)::"memory");
    }
    return to;
}

void *memcpy(void *restrict to, const void *restrict from, size_t size) { return moved(to, from, size); }

void *memmove(void *to, const void *from, size_t size) { return moved(to, from, size); }

__attribute__((destructor)) static void tell(void) {
    const char *name = getenv("COPIED");
    FILE *out = name ? fopen(name, "w") : NULL;
    if (out) {
        fprintf(out, "%llu\n", copied);
        fclose(out);
    }
}
