/* mazzulpe_log.h: the log of a transaction component in a file, for engines that have no log of their own.
 *
 *     mz_log_open(tc, "bank.log", &log, NULL)   behind the procedures: comes back from the file, or begins it
 *     mz_log_write(log, &until)                 under the lock of tc: behind the calls that ask, answer and end
 *     mz_log_sync(log, until)                   without it: before a wire is carried, and before anyone is told
 *     mz_log_close(log)
 *
 * mz_log_write gathers in memory; mz_log_sync puts all that is gathered into the file at once, and syncs it. mz_log_flush in its
 * place leaves the sync out: what is in the file then outlives this process, and not a loss of power.
 *
 * An engine that does so, and is killed anywhere, comes back to what it has carried and told. Behind mz_log_open carry
 * on as behind mz_recover: mz_redo of each data component that is down, mz_open_from, mz_retake, mz_run.
 *
 * ONE SYNC SERVES ALL THREADS that wait for one. mz_log_keep does both calls, where there is one thread.
 *
 * THE FILE has the format of `procd run --log`: `procd log FILE` lists it (docs/FORMATS.md). Who opens it has it alone.
 * Its header says the session that mz_session answers. Beside it stand FILE.new while the log begins anew, and FILE.dropped,
 * with ends that a crash left and that were cut off. A log of layout 1 or 2 has its session in FILE.session until it begins
 * anew. A file that isn't this log is refused, and left as it is.
 *
 * A WRITE OR A SYNC THAT FAILS is final: what the file has then isn't known. Each later call is MZ_LOG_FAILED. Tell nobody,
 * close, and open it again in another process.
 *
 * A DEVICE OF YOUR OWN takes the file's place by mz_log_over; one that outlives this machine, as a cluster does, by
 * mz_log_take_over. This header needs POSIX: with -std=c99 compile with -D_GNU_SOURCE too. */
#ifndef MAZZULPE_LOG_H
#define MAZZULPE_LOG_H

#include "mazzulpe.h"
#include <errno.h>
#include <fcntl.h>
#include <pthread.h>
#include <stdio.h>
#include <sys/file.h>
#include <sys/stat.h>
#include <time.h>
#include <unistd.h>

#ifdef __cplusplus
extern "C" {
#endif

/* Where a log's bytes are kept. Each function answers 0, or something else where it failed, which is final. */
typedef struct {
    void *context;
    /* Puts these bytes behind the others. Of these three one is called at a time, by any thread. */
    int (*append)(void *context, const void *bytes, size_t count);
    /* What was put there outlives a loss of power from now on. */
    int (*sync)(void *context);
    /* These bytes take the place of all others, for good: a crash finds the former or these. */
    int (*replace)(void *context, const void *bytes, size_t count);
    /* Gives it back. It may be NULL. */
    void (*close)(void *context);
} mz_device;

/* What mz_log_open found: the log's events, how many bytes were cut off, and the place of a refusal. */
typedef struct { uint64_t events, dropped, place; } mz_log_found;

/* Of a log since it was opened: bytes written, and those of them that stay; what the device was asked for; and now the length of
 * the file, of one over a device without what was there before. */
typedef struct { uint64_t written, synced, appends, syncs, length; } mz_log_counts;

/* ---- inside */

typedef struct {
    mz_tc *tc;
    mz_device device;
    uint8_t *room, *other;     /* what is gathered; what the device gets meanwhile, or did */
    size_t size, other_size, gathered;
    uint64_t written, put, synced; /* bytes since it was opened: handed out; at the device; so many of them stay */
    uint64_t appends, syncs;   /* of the device */
    uint64_t length;           /* of what the device has, or will have */
    int failed, busy;          /* busy: a thread is in the device */
    pthread_mutex_t lock;      /* of all this but failed; nobody holds it for long */
    pthread_cond_t done;       /* busy is over */
} mz_log;

static inline mz_code mz_log_failed(mz_log *log) {
    __atomic_store_n(&log->failed, 1, __ATOMIC_SEQ_CST);
    return MZ_LOG_FAILED;
}

/* All that is prepared, behind what is gathered. */
static inline mz_code mz_log_take(mz_log *log, size_t *count) {
    uint64_t prepared = 0;
    size_t piece = 0;
    *count = 0;
    mz_code c = mz_file_ahead(log->tc, &prepared);
    if (c != MZ_OK) return c;
    if (log->gathered + prepared + 256 > log->size) {
        size_t size = (log->gathered + (size_t)prepared) * 2 + 256;
        uint8_t *room = (uint8_t *)realloc(log->room, size);
        if (!room) return MZ_MEMORY;
        log->room = room;
        log->size = size;
    }
    while (c == MZ_OK && *count < prepared) {
        c = mz_file_bytes(log->tc, log->room + log->gathered + *count, &piece);
        *count += piece;
    }
    return c;
}

/* The lock is held, and the device nobody's: let go while this thread is in it. */
static inline void mz_log_enter(mz_log *log) {
    log->busy = 1;
    pthread_mutex_unlock(&log->lock);
}

/* Behind the device: whoever waits looks again, once the lock is let go. */
static inline mz_code mz_log_leave(mz_log *log, int failed) {
    mz_code c = failed ? mz_log_failed(log) : MZ_OK;
    pthread_mutex_lock(&log->lock);
    log->busy = 0;
    pthread_cond_broadcast(&log->done);
    return c;
}

/* These bytes are a file from its first frame on, which has the number 0, and take the place of all. The lock is held. */
static inline mz_code mz_log_replace(mz_log *log, const uint8_t *bytes, size_t count) {
    while (log->busy) pthread_cond_wait(&log->done, &log->lock);
    log->gathered = 0;
    mz_log_enter(log);
    mz_code c = mz_log_leave(log, log->device.replace(log->device.context, bytes, count));
    log->written += count;
    log->length = count;
    log->syncs++;
    if (c == MZ_OK) log->put = log->synced = log->written;
    return c;
}

/* Puts all that is gathered into the device, and syncs it where that is wanted. The lock is held, and the device nobody's. */
static inline mz_code mz_log_put_out(mz_log *log, int syncs) {
    uint8_t *bytes = log->room;
    size_t count = log->gathered, size = log->size;
    uint64_t all = log->written;
    log->room = log->other;
    log->size = log->other_size;
    log->other = bytes;
    log->other_size = size;
    log->gathered = 0;
    mz_log_enter(log);
    int failed = count && log->device.append(log->device.context, bytes, count);
    if (!failed && syncs) failed = log->device.sync(log->device.context);
    mz_code c = mz_log_leave(log, failed);
    log->appends += count > 0;
    log->syncs += (uint64_t)syncs;
    if (c == MZ_OK) log->put = all;
    if (c == MZ_OK && syncs) log->synced = all;
    return c;
}

/* One thread is in the device at a time; who waits finds its own done by that, or does the next. */
static inline mz_code mz_log_reach(mz_log *log, uint64_t until, int syncs) {
    int failed = 0;
    mz_code c = MZ_OK;
    if (!log) return MZ_BAD_ARGUMENT;
    pthread_mutex_lock(&log->lock);
    const uint64_t *reached = syncs ? &log->synced : &log->put;
    while (!(failed = __atomic_load_n(&log->failed, __ATOMIC_SEQ_CST)) && *reached < until && log->busy)
        pthread_cond_wait(&log->done, &log->lock);
    if (!failed && *reached < until) c = mz_log_put_out(log, syncs);
    pthread_mutex_unlock(&log->lock);
    return failed ? MZ_LOG_FAILED : c;
}

/* A session that nobody had, where the log has none yet. MZ_LOG_FAILED; MZ_SESSION_STAYS. */
static inline mz_code mz_log_new_session(mz_tc *tc) {
    uint64_t session = mz_session(tc);
    if (session) return MZ_OK;
    int from = open("/dev/urandom", O_RDONLY | O_CLOEXEC);
    if (from < 0) return MZ_LOG_FAILED;
    ssize_t n = read(from, &session, sizeof session);
    close(from);
    return n == (ssize_t)sizeof session ? mz_set_session(tc, session | 1) : MZ_LOG_FAILED;
}

/* ---- a log over a device */

/* A log over a device whose bytes, none perhaps, mz_file_back has come back from, and which ends behind those that are
 * whole; one that begins gets a session of its own, unless mz_set_session gave one. NULL where there is no memory, the log has
 * wires and no session, or one of tc, device, append, sync and replace is NULL. */
static inline mz_log *mz_log_over(mz_tc *tc, const mz_device *device) {
    if (!tc || !device || !device->append || !device->sync || !device->replace) return NULL;
    if (mz_log_new_session(tc) != MZ_OK) return NULL;
    mz_log *log = (mz_log *)calloc(1, sizeof *log);
    if (!log) return NULL;
    log->tc = tc;
    log->device = *device;
    if (!pthread_mutex_init(&log->lock, NULL) && !pthread_cond_init(&log->done, NULL)) return log;
    free(log);
    return NULL;
}

/* Gives it back, with the device, which gets what is gathered. What was written and not synced may be lost. */
static inline void mz_log_close(mz_log *log) {
    if (!log) return;
    mz_log_reach(log, log->written, 0);
    if (log->device.close) log->device.close(log->device.context);
    pthread_cond_destroy(&log->done);
    pthread_mutex_destroy(&log->lock);
    free(log->room);
    free(log->other);
    free(log);
}

/* Gathers what has happened, under the lock of the transaction component. mz_log_sync of *until makes it stay, with all
 * that was written before. Where a megabyte is gathered the device gets it. Behind mz_checkpoint a new file takes the old
 * one's place, which takes two syncs. MZ_LOG_FAILED; MZ_MEMORY, MZ_OTHER_PROCEDURES, MZ_FRAMES_SPENT: nothing was written,
 * and nothing that has happened may be carried or told. */
static inline mz_code mz_log_write(mz_log *log, uint64_t *until) {
    enum { MOST = 1 << 20 };
    size_t count;
    if (!log || !until) return MZ_BAD_ARGUMENT;
    if (__atomic_load_n(&log->failed, __ATOMIC_SEQ_CST)) return MZ_LOG_FAILED;
    pthread_mutex_lock(&log->lock);
    mz_code c = mz_log_take(log, &count);
    const uint8_t *bytes = count ? log->room + log->gathered : NULL;
    if (c == MZ_OK && count >= 8 && !mz_little(bytes, 8)) {
        c = mz_log_replace(log, bytes, count);
    } else if (c == MZ_OK) {
        log->gathered += count;
        log->written += count;
        log->length += count;
    }
    *until = log->written;
    int is_much = log->gathered > MOST;
    pthread_mutex_unlock(&log->lock);
    return c == MZ_OK && is_much ? mz_log_reach(log, *until, 0) : c;
}

/* What mz_log_write has written up to there stays, with all that others have written by now. Call it without the lock of the
 * transaction component. MZ_LOG_FAILED. */
static inline mz_code mz_log_sync(mz_log *log, uint64_t until) { return mz_log_reach(log, until, 1); }

/* The same without the sync: the device has it, so that it outlives this process. MZ_LOG_FAILED. */
static inline mz_code mz_log_flush(mz_log *log, uint64_t until) { return mz_log_reach(log, until, 0); }

/* What an operator watches of it, by any thread, without memory. */
static inline mz_code mz_log_count(mz_log *log, mz_log_counts *counts) {
    if (!log || !counts) return MZ_BAD_ARGUMENT;
    pthread_mutex_lock(&log->lock);
    const mz_log_counts now = {log->written, log->synced, log->appends, log->syncs, log->length};
    pthread_mutex_unlock(&log->lock);
    *counts = now;
    return MZ_OK;
}

/* Writes what has happened and makes it stay. */
static inline mz_code mz_log_keep(mz_log *log) {
    uint64_t until;
    mz_code c = mz_log_write(log, &until);
    return c == MZ_OK ? mz_log_sync(log, until) : c;
}

/* mz_checkpoint, and the file begins anew: under the lock, with nothing open, where storage has kept this mark for good.
 * Refused as mz_checkpoint and mz_log_write; where the latter is, the next mz_log_write does the rest. */
static inline mz_code mz_log_checkpoint(mz_log *log, uint64_t kept) {
    uint64_t until;
    if (!log) return MZ_BAD_ARGUMENT;
    if (__atomic_load_n(&log->failed, __ATOMIC_SEQ_CST)) return MZ_LOG_FAILED;
    mz_code c = mz_checkpoint(log->tc, kept);
    return c == MZ_OK ? mz_log_write(log, &until) : c;
}

/* ---- a log that outlives its machine
 *
 * Its device is reached from several machines, on one of which a transaction component writes at a time. Each that takes over has
 * an epoch of its own, above all before, and the device compares it with each append and replace: one of an earlier epoch is
 * refused, which is final as any failure is (MZ_LOG_FAILED): carry nothing, tell nobody, end. Whatever such a one carried before is
 * in the log, so a data component needs no epoch. */

/* All bytes of the device, which the caller frees, and the number that mz_session answers, made where there is none. From then on
 * append, sync and replace of whoever read before fail. MZ_OK, or what mz_log_take_over is to answer. */
typedef mz_code mz_read(void *context, uint8_t **bytes, size_t *count, uint64_t *session);

/* Takes over from whoever wrote to the device before, behind the procedures of a transaction component in which nothing has happened:
 * comes back from its bytes, as mz_log_open from a file's, and goes on in the same session. Then carry on as behind mz_log_open.
 * An append is there whole or not at all, so an end that isn't whole is MZ_DAMAGED. Refused: as mz_file_back, and as `read` does;
 * MZ_NO_SESSION; MZ_LOG_FAILED: also where another has taken over by now; MZ_MEMORY. Then the device is still yours to close. */
static inline mz_code mz_log_take_over(mz_tc *tc, const mz_device *device, mz_read *read, mz_log **log, mz_log_found *found) {
    mz_log_found was = {0, 0, 0};
    uint8_t *bytes = NULL;
    size_t count = 0;
    uint64_t whole = 0, session = 0;
    if (found) *found = was;
    if (!tc || !device || !read || !log) return MZ_BAD_ARGUMENT;
    *log = NULL;
    mz_code c = read(device->context, &bytes, &count, &session);
    if (c == MZ_OK) c = session ? mz_set_session(tc, session) : MZ_NO_SESSION;
    if (c == MZ_OK) c = mz_file_back(tc, bytes, count, &whole, &was.place);
    free(bytes);
    if (c == MZ_OK && whole != count) c = MZ_DAMAGED;
    if (c == MZ_OK) was.events = mz_log_length(tc);
    if (found) *found = was;
    if (c == MZ_OK && !(*log = mz_log_over(tc, device))) c = MZ_MEMORY;
    if (c != MZ_OK) return c;
    (*log)->length = whole;
    c = mz_log_keep(*log);
    if (c == MZ_OK) return c;
    (*log)->device.close = NULL;
    mz_log_close(*log);
    *log = NULL;
    return c;
}

/* Whether the device still takes ours: a sync, also where nothing is new. Call it now and then, without the lock of the transaction
 * component: one that another has taken over from, and that has nothing to append, learns so by this alone. MZ_LOG_FAILED. */
static inline mz_code mz_log_check(mz_log *log) {
    if (!log) return MZ_BAD_ARGUMENT;
    pthread_mutex_lock(&log->lock);
    while (log->busy) pthread_cond_wait(&log->done, &log->lock);
    mz_code c = __atomic_load_n(&log->failed, __ATOMIC_SEQ_CST) ? MZ_LOG_FAILED : mz_log_put_out(log, 1);
    pthread_mutex_unlock(&log->lock);
    return c;
}

/* ---- inside: a file of the system as a device */

typedef struct { int file; char *path, *beside; } mz_log_file;

static inline void mz_log_path(mz_log_file *f, const char *ending) {
    sprintf(f->beside, "%s%s", f->path, ending);
}

static inline int mz_log_put(int file, const void *bytes, size_t count) {
    const char *at = (const char *)bytes;
    while (count) {
        ssize_t n = write(file, at, count);
        if (n < 0 && errno == EINTR) continue;
        if (n <= 0) return -1;
        at += n;
        count -= (size_t)n;
    }
    return 0;
}

static inline int mz_log_file_append(void *context, const void *bytes, size_t count) {
    return mz_log_put(((mz_log_file *)context)->file, bytes, count);
}

static inline int mz_log_file_sync(void *context) { return fdatasync(((mz_log_file *)context)->file); }

/* What is new in the file's folder stays. */
static inline int mz_log_folder_sync(mz_log_file *f) {
    mz_log_path(f, "");
    char *end = strrchr(f->beside, '/');
    if (end) end[end == f->beside] = 0;
    int folder = open(end ? f->beside : ".", O_RDONLY | O_DIRECTORY | O_CLOEXEC);
    int failed = folder < 0 || fsync(folder);
    if (folder >= 0) close(folder);
    return failed;
}

/* A file with these bytes, for good: FILE.new, which is renamed to FILE. -1, or the file, at its end. */
static inline int mz_log_renamed(mz_log_file *f, const void *bytes, size_t count) {
    mz_log_path(f, ".new");
    int file = open(f->beside, O_RDWR | O_CREAT | O_TRUNC | O_APPEND | O_CLOEXEC, 0644);
    if (file < 0) return -1;
    if (!flock(file, LOCK_EX | LOCK_NB) && !mz_log_put(file, bytes, count) && !fsync(file) && !rename(f->beside, f->path) &&
        !mz_log_folder_sync(f))
        return file;
    close(file);
    return -1;
}

static inline int mz_log_file_replace(void *context, const void *bytes, size_t count) {
    mz_log_file *f = (mz_log_file *)context;
    int file = mz_log_renamed(f, bytes, count);
    if (file < 0) return -1;
    close(f->file);
    f->file = file;
    return 0;
}

static inline void mz_log_file_close(void *context) {
    mz_log_file *f = (mz_log_file *)context;
    if (f->file >= 0) close(f->file);
    free(f->path);
    free(f->beside);
    free(f);
}

/* Whether the open file is the plain file at the path, and nobody else's: one that it was renamed away from isn't. */
static inline mz_code mz_log_file_own(const mz_log_file *f) {
    struct stat is, there;
    if (fstat(f->file, &is)) return MZ_LOG_FAILED;
    if (!S_ISREG(is.st_mode)) return MZ_NO_LOG;
    if (flock(f->file, LOCK_EX | LOCK_NB)) return errno == EWOULDBLOCK ? MZ_LOG_IN_USE : MZ_LOG_FAILED;
    if (stat(f->path, &there)) return MZ_LOG_FAILED;
    return is.st_ino == there.st_ino && is.st_dev == there.st_dev ? MZ_OK : MZ_LOG_IN_USE;
}

/* A child of a killed process has its descriptors until it calls exec or ends, and with them its lock: so a file that
 * is in use is tried again for a moment. */
static inline mz_code mz_log_file_try(mz_log_file *f) {
    enum { TRIES = 50 };
    const struct timespec rest = {0, 10 * 1000 * 1000};
    mz_code c = MZ_LOG_IN_USE;
    for (int tries = 0; tries < TRIES && c == MZ_LOG_IN_USE; tries++) {
        if (tries) nanosleep(&rest, NULL);
        if (f->file >= 0) close(f->file);
        f->file = open(f->path, O_RDWR | O_CREAT | O_APPEND | O_CLOEXEC | O_NONBLOCK, 0644);
        c = f->file < 0 ? MZ_LOG_FAILED : mz_log_file_own(f);
    }
    return c;
}

/* A file that nobody else has; MZ_MEMORY, MZ_LOG_IN_USE, MZ_NO_LOG, MZ_LOG_FAILED. */
static inline mz_code mz_log_file_open(const char *path, mz_log_file **file) {
    mz_log_file *f = (mz_log_file *)calloc(1, sizeof *f);
    if (!f) return MZ_MEMORY;
    f->path = strdup(path);
    f->beside = (char *)malloc(strlen(path) + 16);
    f->file = -1;
    mz_code c = f->path && f->beside ? mz_log_file_try(f) : MZ_MEMORY;
    if (c == MZ_OK) *file = f;
    else mz_log_file_close(f);
    return c;
}

/* As many bytes from this place of a file on. */
static inline mz_code mz_log_read(int file, uint8_t *bytes, size_t count, size_t from) {
    for (size_t at = 0; at < count;) {
        ssize_t n = pread(file, bytes + at, count - at, (off_t)(from + at));
        if (n < 0 && errno == EINTR) continue;
        if (n <= 0) return MZ_LOG_FAILED;
        at += (size_t)n;
    }
    return MZ_OK;
}

/* mz_file_back from a file of this length, of which a piece at a time is in memory here. */
static inline mz_code mz_log_back(int file, mz_tc *tc, size_t count, uint64_t *whole, uint64_t *place) {
    enum { PIECE = 1 << 14 };
    uint8_t piece[PIECE];
    mz_frame *f;
    mz_code c = mz_enter(tc, MZ_KIND_TC, 1, &f);
    if (c != MZ_OK) return c;
    c = mz_make(f, MZ_CALL_CLEAR);
    for (size_t at = 0, size; c == MZ_OK && at < count; at += size) {
        size = count - at < (size_t)PIECE ? count - at : (size_t)PIECE;
        c = mz_log_read(file, piece, size, at);
        if (c == MZ_OK) c = mz_hand_in_more(f, piece, size);
    }
    return mz_leave(f, mz_back_from(f, c, whole, place));
}

/* Whether the file begins with the frame of a header of layout 1 or 2, which says no session. */
static inline int mz_log_is_sessionless(int file, size_t count) {
    enum { FIRST_FRAME = 88, MAGIC = 24, VERSION = 32 };
    uint8_t bytes[FIRST_FRAME];
    return count >= FIRST_FRAME && mz_log_read(file, bytes, FIRST_FRAME, 0) == MZ_OK && !memcmp(bytes + MAGIC, "mazzulpe", 8) &&
           mz_little(bytes + VERSION, 8) <= 2;
}

/* Sets the number in FILE.session: 16 hexadecimal digits and a line's end. */
static inline mz_code mz_log_session_beside(mz_log_file *f, mz_tc *tc) {
    char text[18] = "", *end = text;
    uint64_t session = 0;
    mz_log_path(f, ".session");
    int file = open(f->beside, O_RDONLY | O_CLOEXEC);
    if (file < 0) return errno == ENOENT ? MZ_NO_SESSION : MZ_LOG_FAILED;
    ssize_t n = read(file, text, 17);
    close(file);
    if (n == 17) session = strtoull(text, &end, 16);
    return n == 17 && end == text + 16 && *end == '\n' && session ? mz_set_session(tc, session) : MZ_NO_SESSION;
}

/* Puts the end of the file from there on behind FILE.dropped. */
static inline int mz_log_drop(mz_log_file *f, size_t count, size_t whole) {
    uint8_t *end = (uint8_t *)malloc(count - whole);
    mz_log_path(f, ".dropped");
    int file = end ? open(f->beside, O_WRONLY | O_CREAT | O_APPEND | O_CLOEXEC, 0644) : -1;
    int done = file >= 0 && mz_log_read(f->file, end, count - whole, whole) == MZ_OK && !mz_log_put(file, end, count - whole) &&
               !fsync(file) && !mz_log_folder_sync(f);
    if (file >= 0) close(file);
    free(end);
    return done;
}

/* Cuts the file behind its whole frames, once what is cut off is kept. */
static inline mz_code mz_log_cut(mz_log_file *f, size_t count, size_t whole) {
    if (whole == count) return MZ_OK;
    return mz_log_drop(f, count, whole) && !ftruncate(f->file, (off_t)whole) && !fsync(f->file) ? MZ_OK : MZ_LOG_FAILED;
}

/* Comes back from what the file has, and says so; a log without its session is refused before anything is done. */
static inline mz_code mz_log_come_back(mz_log_file *f, mz_tc *tc, mz_log_found *found, uint64_t *length) {
    uint64_t whole = 0;
    off_t end = lseek(f->file, 0, SEEK_END);
    size_t count = (size_t)end;
    mz_code c = end < 0 ? MZ_LOG_FAILED : MZ_OK;
    if (c == MZ_OK && mz_log_is_sessionless(f->file, count)) c = mz_log_session_beside(f, tc);
    if (c == MZ_OK) c = mz_log_back(f->file, tc, count, &whole, &found->place);
    if (c == MZ_OK) c = mz_log_cut(f, count, (size_t)whole);
    *length = whole;
    found->dropped = c == MZ_OK ? count - whole : 0;
    found->events = c == MZ_OK ? mz_log_length(tc) : 0;
    return c == MZ_OK ? mz_log_new_session(tc) : c;
}

/* ---- a log in a file */

/* Opens the log of a transaction component in which nothing has happened, behind its procedures: comes back from the
 * file, as mz_file_back does, or begins it where it is empty or not there. *found, which may be NULL, says what was there,
 * and is zeros where it wasn't read.
 * Refused: as mz_file_back, the file as it was; MZ_LOG_IN_USE, after half a second; MZ_NO_SESSION; MZ_NO_LOG: also where it is no plain
 * file; MZ_LOG_FAILED, and MZ_MEMORY: tc may have come back, so begin with another. */
static inline mz_code mz_log_open(mz_tc *tc, const char *path, mz_log **log, mz_log_found *found) {
    mz_log_found was = {0, 0, 0};
    mz_log_file *f = NULL;
    if (found) *found = was;
    if (!tc || !path || !log) return MZ_BAD_ARGUMENT;
    *log = NULL;
    mz_code c = mz_log_file_open(path, &f);
    if (c != MZ_OK) return c;
    const mz_device device = {f, mz_log_file_append, mz_log_file_sync, mz_log_file_replace, mz_log_file_close};
    uint64_t length = 0;
    c = mz_log_come_back(f, tc, &was, &length);
    if (found) *found = was;
    if (c == MZ_OK && !(*log = mz_log_over(tc, &device))) c = MZ_MEMORY;
    if (c != MZ_OK) {
        mz_log_file_close(f);
        return c;
    }
    (*log)->length = length;
    c = mz_log_keep(*log);
    if (c == MZ_OK) return c;
    mz_log_close(*log);
    *log = NULL;
    return c;
}

#ifdef __cplusplus
}
#endif
#endif
