/* Stands before the C library (LD_PRELOAD) and keeps what is written to one file in memory until it is synced, as a
 * machine does that may lose its power: a process that is killed loses what it hadn't synced.
 *
 * FORGETFUL_FILE=PATH: this file, which the program opens for appending, once at a time, reads before it writes, and
 * may cut. All other files are left alone.
 * FORGETFUL_SEED=N: drawn from this number, some part of what isn't synced yet reaches the file before its time: a run
 * of the bytes of one write, with zeros before it where it isn't the first, or a cut. 0, or none: no part does. And a
 * sync takes up to a millisecond before it hands anything on.
 * FORGETFUL_LIES=1: a sync hands nothing on, and says that it did.
 */
#define _GNU_SOURCE
#include <dlfcn.h>
#include <errno.h>
#include <fcntl.h>
#include <pthread.h>
#include <stdarg.h>
#include <stdint.h>
#include <stdlib.h>
#include <string.h>
#include <sys/stat.h>
#include <unistd.h>

static struct {
    pthread_mutex_t lock;
    int program, own;  /* the program's descriptor of the file, and ours, by which bytes are written at a place */
    off_t synced;      /* how long what is synced is, less what is cut off */
    char *waiting;     /* what is written behind it */
    size_t count, room;
    uint64_t seed;
} kept = {PTHREAD_MUTEX_INITIALIZER, -1, -1, 0, NULL, 0, 0, 0};

static long setting(const char *name) {
    const char *value = getenv(name);
    return value ? atol(value) : 0;
}

/* A number below this one, by the seed (splitmix64). */
static size_t draw(size_t below) {
    uint64_t x = kept.seed += 0x9e3779b97f4a7c15;
    x = (x ^ (x >> 30)) * 0xbf58476d1ce4e5b9;
    x = (x ^ (x >> 27)) * 0x94d049bb133111eb;
    return (size_t)((x ^ (x >> 31)) % below);
}

/* Begins to keep what is written to a file that was opened. */
static void keep(int file, const char *path) {
    struct stat found;
    kept.own = open(path, O_RDWR | O_CLOEXEC);
    if (kept.own < 0 || fstat(file, &found)) abort();
    kept.program = file;
    kept.synced = found.st_size;
    kept.count = 0;
    kept.seed = (uint64_t)setting("FORGETFUL_SEED");
}

int open(const char *path, int flags, ...) {
    static int (*real)(const char *, int, ...);
    const char *name = getenv("FORGETFUL_FILE");
    va_list more;
    va_start(more, flags);
    mode_t mode = flags & O_CREAT ? va_arg(more, mode_t) : 0;
    va_end(more);
    if (!real) real = dlsym(RTLD_NEXT, "open");
    int file = real(path, flags, mode);
    if (file >= 0 && flags & O_APPEND && name && !strcmp(path, name)) keep(file, path);
    return file;
}

int close(int file) {
    static int (*real)(int);
    if (!real) real = dlsym(RTLD_NEXT, "close");
    if (file == kept.program) {
        kept.program = -1;
        real(kept.own);
    }
    return real(file);
}

/* Some part of what was written from this place on reaches the file before its sync, if there is room for it. */
static void tear(size_t begin) {
    if (!kept.seed || draw(2)) return;
    size_t from = draw(2) ? begin : begin + draw(kept.count - begin);
    size_t to = draw(2) ? kept.count : from + draw(kept.count - from);
    if (pwrite(kept.own, kept.waiting + from, to - from, kept.synced + (off_t)from) < 0) return;
}

ssize_t write(int file, const void *bytes, size_t size) {
    static ssize_t (*real)(int, const void *, size_t);
    if (!real) real = dlsym(RTLD_NEXT, "write");
    if (file != kept.program || !size) return real(file, bytes, size);
    pthread_mutex_lock(&kept.lock);
    if (kept.room < kept.count + size) {
        kept.room = 2 * (kept.count + size);
        kept.waiting = realloc(kept.waiting, kept.room);
        if (!kept.waiting) abort();
    }
    memcpy(kept.waiting + kept.count, bytes, size);
    kept.count += size;
    tear(kept.count - size);
    pthread_mutex_unlock(&kept.lock);
    return (ssize_t)size;
}

int ftruncate(int file, off_t size) {
    static int (*real)(int, off_t);
    int failed = 0;
    if (!real) real = dlsym(RTLD_NEXT, "ftruncate");
    if (file != kept.program) return real(file, size);
    pthread_mutex_lock(&kept.lock);
    if (size > kept.synced + (off_t)kept.count) abort();
    kept.count = size > kept.synced ? (size_t)(size - kept.synced) : 0;
    kept.synced = size < kept.synced ? size : kept.synced;
    if (kept.seed && draw(2)) failed = real(kept.own, size);
    pthread_mutex_unlock(&kept.lock);
    return failed;
}

/* The file's length is what the program has written, also where that isn't handed on. */
int statx(int folder, const char *restrict path, int flags, unsigned int mask, struct statx *restrict known) {
    static int (*real)(int, const char *, int, unsigned int, struct statx *);
    if (!real) real = dlsym(RTLD_NEXT, "statx");
    int failed = real(folder, path, flags, mask, known);
    if (failed || folder != kept.program || *path) return failed;
    pthread_mutex_lock(&kept.lock);
    known->stx_size = (uint64_t)(kept.synced + (off_t)kept.count);
    pthread_mutex_unlock(&kept.lock);
    return 0;
}

/* Hands on all that waits; -1 with errno set where the system doesn't take it. */
static int hand_on(int (*sync)(int)) {
    off_t end = kept.synced + (off_t)kept.count;
    for (size_t done = 0; done < kept.count;) {
        ssize_t taken = pwrite(kept.own, kept.waiting + done, kept.count - done, kept.synced + (off_t)done);
        if (taken < 0 && errno != EINTR) return -1;
        done += taken < 0 ? 0 : (size_t)taken;
    }
    if (ftruncate(kept.own, end) || sync(kept.own)) return -1;
    kept.synced = end;
    kept.count = 0;
    return 0;
}

static int synced(int file, int (*sync)(int)) {
    if (file != kept.program) return sync(file);
    if (setting("FORGETFUL_LIES")) return 0;
    pthread_mutex_lock(&kept.lock);
    if (kept.seed) usleep((useconds_t)draw(1000));
    int failed = hand_on(sync);
    pthread_mutex_unlock(&kept.lock);
    return failed;
}

int fsync(int file) {
    static int (*real)(int);
    if (!real) real = dlsym(RTLD_NEXT, "fsync");
    return synced(file, real);
}

int fdatasync(int file) {
    static int (*real)(int);
    if (!real) real = dlsym(RTLD_NEXT, "fdatasync");
    return synced(file, real);
}
