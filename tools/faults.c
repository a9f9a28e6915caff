/* Stands before the C library (LD_PRELOAD) and lets its calls fail, as the environment says:
 *
 * ALLOCATION_FAILS=N, ALLOCATIONS_FAIL_FROM=N: the Nth request for memory fails, or each from there on.
 * ALLOCATIONS_TO=FILE: requests are counted in the file's first eight bytes.
 * READ_FAILS_AFTER=N: reads give N bytes in all, and then fail. READ_MOST=N: a read gives at most N bytes.
 * READ_INTERRUPTED=1: each second read is interrupted before it gives anything.
 * WRITE_FAILS_AFTER, WRITE_MOST, WRITE_INTERRUPTED: the same of writes to standard output; WRITE_NOTHING=1:
 * they take no byte.
 * RENAME_FAILS=1: no file is renamed.
 */
#define _GNU_SOURCE
#include <dlfcn.h>
#include <errno.h>
#include <fcntl.h>
#include <stdio.h>
#include <stdlib.h>
#include <sys/mman.h>
#include <unistd.h>

struct stream {
    const char *fails_after, *most, *interrupted;
    long bytes;
    int turn;
};
static struct stream input = {"READ_FAILS_AFTER", "READ_MOST", "READ_INTERRUPTED", 0, 0};
static struct stream output = {"WRITE_FAILS_AFTER", "WRITE_MOST", "WRITE_INTERRUPTED", 0, 0};

static long setting(const char *name, long otherwise) {
    const char *value = getenv(name);
    return value ? atol(value) : otherwise;
}

/* The count of requests: in the file, so that it is there however the program ends. */
static long *allocations(void) {
    static long own, *counter;
    if (!counter) {
        const char *path = getenv("ALLOCATIONS_TO");
        int file = path ? open(path, O_RDWR) : -1;
        void *shared = file < 0 ? MAP_FAILED : mmap(NULL, sizeof own, PROT_READ | PROT_WRITE, MAP_SHARED, file, 0);
        counter = shared == MAP_FAILED ? &own : shared;
    }
    return counter;
}

static int allocation_fails(void) {
    long count = __atomic_add_fetch(allocations(), 1, __ATOMIC_SEQ_CST);
    long from = setting("ALLOCATIONS_FAIL_FROM", 0);
    return count == setting("ALLOCATION_FAILS", 0) || (from > 0 && count >= from);
}

void *malloc(size_t size) {
    static void *(*real)(size_t);
    if (!real) real = dlsym(RTLD_NEXT, "malloc");
    return allocation_fails() ? NULL : real(size);
}

void *realloc(void *old, size_t size) {
    static void *(*real)(void *, size_t);
    if (!real) real = dlsym(RTLD_NEXT, "realloc");
    return allocation_fails() ? NULL : real(old, size);
}

/* How many of these bytes may go through, or -1 with errno set. */
static ssize_t let_through(struct stream *stream, size_t size, int error) {
    size_t most = (size_t)setting(stream->most, (long)size);
    long left = setting(stream->fails_after, -1);
    if (setting(stream->interrupted, 0) && stream->turn++ % 2 == 0) {
        errno = EINTR;
        return -1;
    }
    if (left >= 0 && (left -= stream->bytes) <= 0) {
        errno = error;
        return -1;
    }
    if (left >= 0 && most > (size_t)left) most = (size_t)left;
    return (ssize_t)(most < size ? most : size);
}

ssize_t read(int file, void *bytes, size_t size) {
    static ssize_t (*real)(int, void *, size_t);
    if (!real) real = dlsym(RTLD_NEXT, "read");
    ssize_t count = let_through(&input, size, EIO);
    if (count >= 0) count = real(file, bytes, (size_t)count);
    if (count > 0) input.bytes += count;
    return count;
}

ssize_t write(int file, const void *bytes, size_t size) {
    static ssize_t (*real)(int, const void *, size_t);
    if (!real) real = dlsym(RTLD_NEXT, "write");
    if (file != STDOUT_FILENO) return real(file, bytes, size);
    if (setting("WRITE_NOTHING", 0)) return 0;
    ssize_t count = let_through(&output, size, ENOSPC);
    if (count >= 0) count = real(file, bytes, (size_t)count);
    if (count > 0) output.bytes += count;
    return count;
}

int rename(const char *from, const char *to) {
    static int (*real)(const char *, const char *);
    if (!real) real = dlsym(RTLD_NEXT, "rename");
    if (!setting("RENAME_FAILS", 0)) return real(from, to);
    errno = EIO;
    return -1;
}
