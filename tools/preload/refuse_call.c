// Preloaded into a program under test: counts its calls that write, sync or cut a regular file, or change a name, from 1, and at
// the CALL_NUMBER-th does what CALL_DOES says:
//   refuse       this call alone fails, with the number CALL_ERROR of errno.h
//   refuse-on    this call fails, and so does each later one
//   refuse-sync  the first sync from this call on fails
//   half         a write takes the first half of its bytes, as it may; another call is made
//   stop         the program ends before this call, as by SIGKILL
//   lose         so, and the disk loses what was written or cut since the file's last sync
//   tear         so, and of each write since the file's last sync the disk keeps all, nothing, or a first or a last part, and has
//                what stood there, zeros or other bytes for the rest, as CALL_SEED draws it
// With TELL_CALLS set it writes how many there were to the file of that name. With NO_LINKS set no file gets another name, as on
// another file system.
#define _GNU_SOURCE
#include <dlfcn.h>
#include <errno.h>
#include <fcntl.h>
#include <signal.h>
#include <stdio.h>
#include <stdlib.h>
#include <string.h>
#include <sys/stat.h>
#include <sys/uio.h>
#include <unistd.h>

// A write or a new length that the file's next sync makes sure of: which file it is, where, what stood there, and the file's length
// before it.
struct change {
    int file, is_cut;
    dev_t disk;
    ino_t number;
    off_t at, length;
    size_t size, had;
    char *old;
    struct change *before;
};

static struct change *unsynced = NULL;
static long count = 0, number = -1, error = EIO;
static unsigned long seed = 1;
static const char *does = "";

static ssize_t (*pwrite_of)(int, const void *, size_t, off_t);
static int (*ftruncate_of)(int, off_t);

static void *next(const char *name) { return dlsym(RTLD_NEXT, name); }

// `of`: the library's own function of that name.
#define OF(result, name, ...) \
    static result (*of)(__VA_ARGS__); \
    if (!of) of = next(#name)

__attribute__((constructor)) static void begin(void) {
    const char *text;
    pwrite_of = next("pwrite");
    ftruncate_of = next("ftruncate");
    if ((text = getenv("CALL_NUMBER"))) number = atol(text);
    if ((text = getenv("CALL_ERROR"))) error = atol(text);
    if ((text = getenv("CALL_SEED"))) seed = strtoul(text, NULL, 10);
    if ((text = getenv("CALL_DOES"))) does = text;
}

__attribute__((destructor)) static void tell(void) {
    const char *name = getenv("TELL_CALLS");
    FILE *out = name ? fopen(name, "w") : NULL;
    if (out) {
        fprintf(out, "%ld\n", count);
        fclose(out);
    }
}

// Whether a file is a regular one that the program opened: a test may collect standard error in a file, which never fails.
static int is_regular(int file) {
    struct stat found;
    return file > STDERR_FILENO && fstat(file, &found) == 0 && S_ISREG(found.st_mode);
}

static unsigned long drawn(unsigned long below) {
    seed = seed * 6364136223846793005UL + 1442695040888963407UL;
    return (seed >> 33) % below;
}

static int is(const char *name) { return strcmp(does, name) == 0; }

static void note(int file, off_t at, size_t size, int is_cut) {
    struct stat found;
    struct change *it = calloc(1, sizeof *it);
    if (!it || fstat(file, &found) != 0) _exit(3);
    *it = (struct change){file, is_cut, found.st_dev, found.st_ino, at, found.st_size, size, 0, NULL, unsynced};
    if (size > 0) {
        ssize_t had;
        it->old = calloc(1, size);
        if (!it->old || (had = pread(file, it->old, size, at)) < 0) _exit(3);
        it->had = (size_t)had;
    }
    unsynced = it;
}

// A file was synced, by whichever of its descriptors.
static void forget(int file) {
    struct stat synced;
    if (!unsynced) return;
    if (fstat(file, &synced) != 0) _exit(3);
    for (struct change **it = &unsynced; *it;) {
        struct change *found = *it;
        if (found->disk != synced.st_dev || found->number != synced.st_ino) {
            it = &found->before;
            continue;
        }
        *it = found->before;
        free(found->old);
        free(found);
    }
}

// Puts back what stood in a part of a range that was written, and past the file's old end zeros, or other bytes.
static void put_back(const struct change *it, size_t first, size_t last, char beyond) {
    for (size_t place = first; place < last; place += 1) {
        char byte = place < it->had ? it->old[place] : beyond;
        if (pwrite_of(it->file, &byte, 1, it->at + (off_t)place) < 0) _exit(3);
    }
}

static void set_back(const struct change *it) {
    if (it->had > 0 && pwrite_of(it->file, it->old, it->had, it->at) < 0) _exit(3);
    if (ftruncate_of(it->file, it->length) != 0) _exit(3);
}

// Takes back the changes, the last one first, or some of them.
static void lose(int tears) {
    for (struct change *it = unsynced; it; it = it->before) {
        unsigned long kind = tears ? drawn(it->is_cut ? 2 : 5) : 0;
        if (kind == 0) set_back(it);
        if (kind == 2) put_back(it, drawn(it->size), it->size, 0);
        if (kind == 3) put_back(it, 0, drawn(it->size), (char)0xa5);
        if (kind == 4) put_back(it, 0, it->size, 0);
    }
}

// Before a descriptor is closed whose file has changes that weren't synced, they get another one, which stays.
static void keep(int file) {
    int kept = -1;
    for (struct change *it = unsynced; it; it = it->before) {
        if (it->file != file) continue;
        if (kept < 0 && (kept = fcntl(file, F_DUPFD_CLOEXEC, 500)) < 0) _exit(3);
        it->file = kept;
    }
}

static void stop(void) {
    kill(getpid(), SIGKILL);
    _exit(3);
}

// Counts a call, and says whether it is refused.
static int is_refused_now(void) {
    count += 1;
    if (count == number && is("stop")) stop();
    if (count == number && (is("lose") || is("tear"))) {
        lose(is("tear"));
        stop();
    }
    if (is("refuse") ? count == number : is("refuse-on") && number > 0 && count >= number) {
        errno = (int)error;
        return 1;
    }
    return 0;
}

static int is_refused(int file) { return is_regular(file) && is_refused_now(); }

// Whether a sync that was counted is the one that fails.
static int is_first_sync(int file) {
    static int has_failed = 0;
    if (has_failed || !is("refuse-sync") || number < 0 || count < number || !is_regular(file)) return 0;
    has_failed = 1;
    errno = (int)error;
    return 1;
}

static int notes(int file) { return (is("lose") || is("tear")) && is_regular(file); }

// How many bytes of a write are made.
static size_t part(int file, size_t size) {
    return count == number && is("half") && size > 1 && is_regular(file) ? size / 2 : size;
}

ssize_t pwrite(int file, const void *bytes, size_t size, off_t at) {
    if (is_refused(file)) return -1;
    if (notes(file) && size > 0) note(file, at, size, 0);
    return pwrite_of(file, bytes, part(file, size), at);
}

ssize_t pwrite64(int file, const void *bytes, size_t size, off_t at) { return pwrite(file, bytes, size, at); }

ssize_t write(int file, const void *bytes, size_t size) {
    OF(ssize_t, write, int, const void *, size_t);
    if (is_refused(file)) return -1;
    if (notes(file) && size > 0) note(file, lseek(file, 0, SEEK_CUR), size, 0);
    return of(file, bytes, part(file, size));
}

// Vectors of bytes: as many writes as there are parts would be other calls, so of these none is made by half.
ssize_t writev(int file, const struct iovec *parts, int many) {
    OF(ssize_t, writev, int, const struct iovec *, int);
    if (is_refused(file)) return -1;
    if (notes(file)) _exit(3);
    return of(file, parts, many);
}

ssize_t pwritev(int file, const struct iovec *parts, int many, off_t at) {
    OF(ssize_t, pwritev, int, const struct iovec *, int, off_t);
    if (is_refused(file)) return -1;
    if (notes(file)) _exit(3);
    return of(file, parts, many, at);
}

ssize_t pwritev64(int file, const struct iovec *parts, int many, off_t at) { return pwritev(file, parts, many, at); }

#define SYNC(name) \
    int name(int file) { \
        OF(int, name, int); \
        if (is_refused(file) || is_first_sync(file)) return -1; \
        int done = of(file); \
        if (done == 0) forget(file); \
        return done; \
    }

SYNC(fsync)
SYNC(fdatasync)

int ftruncate(int file, off_t length) {
    struct stat found;
    if (is_refused(file)) return -1;
    if (notes(file)) {
        // What is cut off stands again where the cut is lost.
        if (fstat(file, &found) != 0) _exit(3);
        note(file, length, found.st_size > length ? (size_t)(found.st_size - length) : 0, 1);
    }
    return ftruncate_of(file, length);
}

int ftruncate64(int file, off_t length) { return ftruncate(file, length); }

int close(int file) {
    OF(int, close, int);
    if (unsynced) keep(file);
    return of(file);
}

int rename(const char *from, const char *to) {
    OF(int, rename, const char *, const char *);
    return is_refused_now() ? -1 : of(from, to);
}

int link(const char *from, const char *to) {
    OF(int, link, const char *, const char *);
    if (getenv("NO_LINKS")) {
        errno = EXDEV;
        return -1;
    }
    return is_refused_now() ? -1 : of(from, to);
}

int unlink(const char *name) {
    OF(int, unlink, const char *);
    return is_refused_now() ? -1 : of(name);
}

int mkdir(const char *name, mode_t mode) {
    OF(int, mkdir, const char *, mode_t);
    return is_refused_now() ? -1 : of(name, mode);
}

int rmdir(const char *name) {
    OF(int, rmdir, const char *);
    return is_refused_now() ? -1 : of(name);
}
