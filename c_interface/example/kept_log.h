/* The file of an engine's log: what the last checkpoint left of the storage (an image of so many bytes; none of storage
 * that keeps itself), and behind it the rows of the log since. What stands in it outlives the process; an engine that
 * has to outlive a loss of power syncs it, and the one beside it, before a wire is carried and before anybody is told. */
#ifndef KEPT_LOG_H
#define KEPT_LOG_H

#include "mazzulpe.h"
#include <fcntl.h>
#include <stdio.h>
#include <unistd.h>

typedef struct {
    mz_tc *tc;
    const char *path;
    void *image;
    size_t image_bytes;
    int file, beside;  /* beside: the file that a checkpoint has begun, or -1 */
    uint64_t written;  /* so many rows of the log are in the file */
    uint8_t rows[1024][MZ_EVENT_BYTES];
} kept_log;

static inline void die(const char *what, mz_code code) {
    fprintf(stderr, "%s: %s\n", what, mz_code_text(code));
    exit(1);
}

static inline void write_all(int file, const void *from, size_t bytes) {
    const char *at = (const char *)from;
    for (ssize_t n; bytes; at += n, bytes -= (size_t)n)
        if ((n = write(file, at, bytes)) <= 0) die("write", MZ_OK);
}

/* The file at this path, for a transaction component in which nothing has happened. */
static inline void log_open(kept_log *k, mz_tc *tc, const char *path) {
    k->tc = tc;
    k->path = path;
    k->beside = -1;
    k->written = 0;
    k->file = open(path, O_RDWR | O_CREAT | O_APPEND | O_CLOEXEC, 0644);
    if (k->file < 0) die(path, MZ_OK);
}

/* Writes the rows that the log has and the file not yet. What stands in them may be told then. */
static inline void log_keep(kept_log *k) {
    uint64_t length = mz_log_length(k->tc), count = 0;
    for (; k->written < length; k->written++) {
        mz_code c = mz_log_bytes(k->tc, k->written, k->rows[count++]);
        if (c != MZ_OK) die("mz_log_bytes", c);
        if (count < sizeof k->rows / MZ_EVENT_BYTES && k->written + 1 < length) continue;
        write_all(k->file, k->rows, count * MZ_EVENT_BYTES);
        if (k->beside >= 0) write_all(k->beside, k->rows, count * MZ_EVENT_BYTES);
        count = 0;
    }
}

/* Behind mz_checkpoint, whose event begins a file beside this one. Until log_swap rows go into both: what follows is
 * legal behind the long log as behind that event, so the engine goes on, and comes back from either. */
static inline void log_begin(kept_log *k) {
    char beside[512];
    uint8_t row[MZ_EVENT_BYTES];
    snprintf(beside, sizeof beside, "%s.new", k->path);
    mz_code c = mz_log_bytes(k->tc, 0, row);
    k->beside = open(beside, O_RDWR | O_CREAT | O_TRUNC | O_APPEND | O_CLOEXEC, 0644);
    if (c != MZ_OK || k->beside < 0) die(beside, c);
    write_all(k->beside, k->image, k->image_bytes);
    write_all(k->beside, row, sizeof row);
    k->written = 1;
}

/* Puts that file in the place of the old one, synced. It takes no lock; log_swap takes the one of log_keep. */
static inline void log_sync(const kept_log *k) {
    char beside[512], folder[512];
    snprintf(beside, sizeof beside, "%s.new", k->path);
    snprintf(folder, sizeof folder, "%s", k->path);
    char *end = strrchr(folder, '/');
    if (end) *end = 0;
    int at = open(end ? folder : ".", O_RDONLY | O_DIRECTORY | O_CLOEXEC);
    if (fsync(k->beside) || rename(beside, k->path) || at < 0 || fsync(at)) die(beside, MZ_OK);
    close(at);
}

static inline void log_swap(kept_log *k) {
    close(k->file);
    k->file = k->beside;
    k->beside = -1;
}

/* The image, and whole rows behind it; what isn't whole at the file's end is cut off. A new file gets the image first. */
static inline uint8_t *log_read(kept_log *k, size_t *count) {
    size_t length = (size_t)lseek(k->file, 0, SEEK_END), begun = k->image_bytes;
    if (length < begun) {
        if (ftruncate(k->file, 0)) die("truncate", MZ_OK);
        write_all(k->file, k->image, length = begun);
    }
    k->written = *count = (length - begun) / MZ_EVENT_BYTES;
    uint8_t *rows = (uint8_t *)malloc(*count * MZ_EVENT_BYTES + 1);
    if (!rows) die("memory", MZ_MEMORY);
    if (pread(k->file, k->image, begun, 0) != (ssize_t)begun) die("read", MZ_OK);
    for (size_t got = 0, n; got < *count * MZ_EVENT_BYTES; got += n) {
        n = (size_t)pread(k->file, rows + got, *count * MZ_EVENT_BYTES - got, (off_t)(begun + got));
        if ((ssize_t)n <= 0) die("read", MZ_OK);
    }
    if (ftruncate(k->file, (off_t)(begun + *count * MZ_EVENT_BYTES))) die("truncate", MZ_OK);
    return rows;
}

#endif
