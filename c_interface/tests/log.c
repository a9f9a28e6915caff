/* A bank over mazzulpe_log.h. Its file is cut at one length in STEP (97) and changed in one byte in STEP, and opened again:
 * what was synced is there, or the file is refused and left as it was. It begins anew in the midst. Then what can't be
 * opened, devices that fail, one that others take over, and threads that share syncs.
 *
 *     test_log [STEP] */
#define _GNU_SOURCE
#include "mazzulpe_log.h"
#include "mazzulpe_object.h"
#include "seen.h"
#include <sys/wait.h>

enum { DCS = 2, CALLS = 12, HALF = 6, MOST_FRAMES = 200, THREADS = 8, TURNS = 50, SYNC = 4000, TRIES = 3 };
enum { CHILD_LIVES = 100000 }; /* microseconds */

/* lock: the transaction component's, where threads share it; it is let go while the log is synced. */
typedef struct { mz_tc *tc; mz_dc *dcs[DCS]; mz_log *log; pthread_mutex_t *lock; } bank;

static char folder[256], path[280], other[280];

static mz_tc *started(void) {
    mz_code c;
    mz_tc *tc = mz_tc_new(DCS, &c);
    if (!tc || mz_load_object_file(tc, "build/bank.o", NULL, NULL) != MZ_OK) exit(2);
    return tc;
}

static mz_code kept(bank *b) {
    uint64_t until;
    mz_code c = mz_log_write(b->log, &until);
    if (c != MZ_OK) return c;
    if (b->lock) pthread_mutex_unlock(b->lock);
    c = mz_log_sync(b->log, until);
    if (b->lock) pthread_mutex_lock(b->lock);
    return c;
}

static mz_carried carry(void *context, const mz_wire *wire, mz_reply *reply, mz_news *news) {
    bank *b = (bank *)context;
    const mz_wire mine = *wire;
    (void)news;
    SEEN(mine.session == mz_session(b->tc) && mine.session);
    if (kept(b) != MZ_OK) return MZ_LOST;
    return mz_dc_perform(b->dcs[mine.record.dc], &mine, reply) == MZ_OK ? MZ_REPLIED : MZ_LOST;
}

/* A call to its end, which is in the log then; 0 where the log fails. */
static int called(bank *b, const char *name, const uint64_t *args, size_t count) {
    uint64_t procedure = 0, txn = 0;
    mz_receipt receipt;
    mz_next stopped;
    SEEN(mz_find(b->tc, name, &procedure) == MZ_OK && mz_admit(b->tc, procedure, args, count, &txn, NULL, NULL) == MZ_OK);
    SEEN(mz_run(b->tc, txn, carry, b, TRIES, &receipt, &stopped) == MZ_OK);
    return stopped == MZ_OVER && kept(b) == MZ_OK;
}

static int called_next(bank *b, int call) {
    const uint64_t account = (uint64_t)(call % 3), deposit[] = {account, 100}, move[] = {account, account, 7};
    return call < 3 ? called(b, "deposit_here", deposit, 2)
         : call < 6 ? called(b, "deposit_there", deposit, 2) : called(b, "move", move, 3);
}

static void opened(bank *b, const char *at, mz_log_found *found) {
    mz_code c;
    memset(b, 0, sizeof *b);
    b->tc = started();
    for (int d = 0; d < DCS; d++) b->dcs[d] = mz_dc_new(100, 1000, &c);
    SEEN(mz_log_open(b->tc, at, &b->log, found) == MZ_OK && mz_session(b->tc));
}

static void closed(bank *b) {
    mz_log_close(b->log);
    for (int d = 0; d < DCS; d++) mz_dc_free(b->dcs[d]);
    mz_tc_free(b->tc);
}

/* ---- files */

typedef struct { uint8_t bytes[1 << 16]; size_t count; } content;

static void content_of(const char *at, content *c) {
    FILE *file = fopen(at, "rb");
    c->count = file ? fread(c->bytes, 1, sizeof c->bytes, file) : 0;
    if (file) fclose(file);
}

static void written(const char *at, const void *bytes, size_t count) {
    FILE *file = fopen(at, "wb");
    if (!file || fwrite(bytes, 1, count, file) != count || fclose(file)) exit(2);
}

static const char *beside(const char *at, const char *ending) {
    static char name[320];
    snprintf(name, sizeof name, "%s%s", at, ending);
    return name;
}

static int is_content(const char *at, const void *bytes, size_t count) {
    static content now;
    content_of(at, &now);
    return now.count == count && !memcmp(now.bytes, bytes, count);
}

/* What a file of these bytes is opened as, in a new life. */
static mz_code reopened(const void *bytes, size_t count, mz_log_found *found) {
    mz_tc *tc = started();
    mz_log *log;
    written(other, bytes, count);
    mz_code c = mz_log_open(tc, other, &log, found);
    SEEN((c == MZ_OK) == (log != NULL));
    if (log) mz_log_close(log);
    mz_tc_free(tc);
    return c;
}

/* ---- one life, with what had to stay at each moment */

static struct { size_t length; uint64_t events; } synced[MOST_FRAMES];
static size_t syncs, begun, step = 97; /* begun: so long a file has its beginning, which comes to be at once */

static void lived(content *whole, int cuts) {
    bank b;
    mz_log_found found;
    struct stat is;
    opened(&b, path, &found);
    SEEN(found.events == 0 && found.dropped == 0 && !stat(path, &is));
    syncs = 0;
    begun = (size_t)is.st_size;
    for (int call = 0; call < CALLS; call++) {
        if (cuts && call == HALF) {
            uint64_t mark = mz_low_water(b.tc);
            SEEN(mz_log_checkpoint(b.log, mark) == MZ_OK && mz_log_length(b.tc) == 1 && !stat(path, &is));
            syncs = 0;
            begun = (size_t)is.st_size;
        }
        SEEN(called_next(&b, call) && !stat(path, &is));
        synced[syncs].length = (size_t)is.st_size;
        synced[syncs++].events = mz_log_length(b.tc);
    }
    content_of(path, whole);
    closed(&b);
}

/* Cut at some lengths: what is there are whole frames, all that was synced by then; what was cut off lies beside. */
static void cut(const content *whole) {
    static content left;
    for (size_t length = begun; length <= whole->count; length += step) {
        mz_log_found found;
        size_t kept = 0;
        unlink(beside(other, ".dropped"));
        SEEN(reopened(whole->bytes, length, &found) == MZ_OK);
        for (size_t k = 0; k < syncs; k++) kept = synced[k].length <= length ? (size_t)synced[k].events : kept;
        content_of(other, &left);
        SEEN(found.events >= kept && left.count + found.dropped == length && !memcmp(left.bytes, whole->bytes, left.count));
        SEEN(!found.dropped || is_content(beside(other, ".dropped"), whole->bytes + left.count, (size_t)found.dropped));
    }
}

/* A byte changed: refused and as it was, but for the last frame, which is torn then. */
static void changed(content *whole, size_t last) {
    for (size_t at = 0; at < whole->count; at += step) {
        mz_log_found found;
        whole->bytes[at] ^= 0x55;
        mz_code c = reopened(whole->bytes, whole->count, &found);
        SEEN(c == MZ_OK ? at >= last && found.dropped == whole->count - last : is_content(other, whole->bytes, whole->count));
        SEEN(c == MZ_OK || c == MZ_DAMAGED || c == MZ_NO_LOG || c == MZ_OTHER_PROCEDURES);
        whole->bytes[at] ^= 0x55;
    }
}

/* Where the last frame begins: frames are a number, a length and a checksum of 8 bytes each, and so many bytes. */
static size_t last_frame(const content *whole) {
    size_t last = 0;
    for (size_t at = 0; at < whole->count; at += 24 + (size_t)mz_little(whole->bytes + at + 8, 8)) last = at;
    return last;
}

static void goes_on(const content *whole) {
    bank b;
    mz_log_found found;
    uint64_t session;
    written(path, whole->bytes, whole->count);
    opened(&b, path, &found);
    session = mz_session(b.tc);
    SEEN(found.events == synced[syncs - 1].events && mz_open_count(b.tc) == 0);
    for (int d = 0; d < DCS; d++) mz_dc_hear_mark(b.dcs[d], 0, mz_low_water(b.tc));
    SEEN(called_next(&b, 0));
    closed(&b);
    opened(&b, path, &found);
    SEEN(found.events == synced[syncs - 1].events + 6 && mz_session(b.tc) == session);
    closed(&b);
}

/* ---- sessions */

/* FNV-1a, of 64 bits. */
static uint64_t hashed(uint64_t hash, const uint8_t *bytes, size_t count) {
    for (size_t i = 0; i < count; i++) hash = (hash ^ bytes[i]) * 1099511628211u;
    return hash;
}

static void put_number(uint8_t *at, uint64_t number) {
    for (int i = 0; i < 8; i++) at[i] = (uint8_t)(number >> 8 * i);
}

enum { FRAME_HEAD = 24, VERSION_AT = FRAME_HEAD + 8, SESSION_AT = FRAME_HEAD + 64 };

/* The same log in layout 1 or 2: without the session. */
static void without_session(const content *whole, content *old) {
    const size_t length = (size_t)mz_little(whole->bytes + 8, 8) - 8;
    memcpy(old->bytes, whole->bytes, SESSION_AT);
    memcpy(old->bytes + SESSION_AT, whole->bytes + SESSION_AT + 8, whole->count - SESSION_AT - 8);
    old->count = whole->count - 8;
    put_number(old->bytes + 8, length);
    put_number(old->bytes + VERSION_AT, mz_little(whole->bytes + VERSION_AT, 8) - 2);
    put_number(old->bytes + 16, hashed(hashed(14695981039346656037u, old->bytes, 16), old->bytes + FRAME_HEAD, length));
}

static void session_changed(content *whole) {
    whole->bytes[SESSION_AT + 3] ^= 1;
    SEEN(reopened(whole->bytes, whole->count, NULL) == MZ_DAMAGED && is_content(other, whole->bytes, whole->count));
    whole->bytes[SESSION_AT + 3] ^= 1;
}

/* Its session is in FILE.session until it begins anew, and in the header from then on. */
static void older_layout(const content *whole, uint64_t version) {
    static content old;
    bank b;
    mz_log_found found;
    without_session(whole, &old);
    SEEN(mz_little(old.bytes + VERSION_AT, 8) == version);
    unlink(beside(other, ".session"));
    SEEN(reopened(old.bytes, old.count, NULL) == MZ_NO_SESSION && is_content(other, old.bytes, old.count));
    written(beside(other, ".session"), "00000000000000ff\n", 17);
    opened(&b, other, &found);
    SEEN(mz_session(b.tc) == 0xff && found.events == synced[syncs - 1].events && is_content(other, old.bytes, old.count));
    SEEN(mz_set_session(b.tc, 7) == MZ_SESSION_STAYS && mz_session(b.tc) == 0xff);
    SEEN(mz_log_checkpoint(b.log, mz_last_number(b.tc)) == MZ_OK);
    closed(&b);
    unlink(beside(other, ".session"));
    opened(&b, other, &found);
    SEEN(mz_session(b.tc) == 0xff && found.events == 1);
    closed(&b);
    content_of(other, &old);
    SEEN(mz_little(old.bytes + VERSION_AT, 8) == 4 && mz_little(old.bytes + SESSION_AT, 8) == 0xff);
}

static void sessions_set(void) {
    mz_tc *tc = started();
    SEEN(mz_set_session(tc, 0) == MZ_BAD_ARGUMENT && mz_session(tc) == 0);
    SEEN(mz_set_session(tc, 5) == MZ_OK && mz_set_session(tc, 6) == MZ_OK && mz_session(tc) == 6);
    uint64_t txn = 0, count = 0, procedure = 0;
    const uint64_t args[] = {0, 1};
    mz_asked asked;
    SEEN(mz_find(tc, "deposit_here", &procedure) == MZ_OK && mz_admit(tc, procedure, args, 2, &txn, NULL, NULL) == MZ_OK);
    SEEN(mz_set_session(tc, 7) == MZ_OK && mz_ask(tc, txn, &asked) == MZ_OK && asked.wire.session == 7);
    SEEN(mz_set_session(tc, 8) == MZ_SESSION_STAYS && mz_session(tc) == 7);
    mz_tc_free(tc);
    tc = started();
    SEEN(mz_file_ahead(tc, &count) == MZ_OK && mz_set_session(tc, 5) == MZ_OK);
    mz_tc_free(tc);
    tc = started();
    SEEN(mz_set_session(tc, 5) == MZ_OK && mz_file_ahead(tc, &count) == MZ_OK && mz_set_session(tc, 6) == MZ_SESSION_STAYS);
    mz_tc_free(tc);
}

/* ---- what can't be opened */

static mz_code refused(mz_tc *tc, const char *at) {
    mz_log *log = NULL;
    mz_code c = mz_log_open(tc, at, &log, NULL);
    SEEN(!log && mz_log_length(tc) == 0);
    return c;
}

static void not_opened(const content *whole) {
    static const char text[] = "This is a text, and no log of any transaction component; it is longer than a header's frame is.";
    mz_code c;
    mz_tc *tc = started(), *empty = mz_tc_new(DCS, &c);
    mz_log *log;
    written(other, text, sizeof text);
    SEEN(refused(tc, other) == MZ_NO_LOG && is_content(other, text, sizeof text));
    written(other, whole->bytes, whole->count);
    SEEN(refused(empty, other) == MZ_OTHER_PROCEDURES);
    SEEN(refused(NULL, path) == MZ_BAD_ARGUMENT && mz_log_open(tc, NULL, &log, NULL) == MZ_BAD_ARGUMENT);
    SEEN(mz_log_keep(NULL) == MZ_BAD_ARGUMENT && mz_log_sync(NULL, 0) == MZ_BAD_ARGUMENT);
    SEEN(mz_log_checkpoint(NULL, 0) == MZ_BAD_ARGUMENT);
    mz_log_close(NULL);
    SEEN(refused(tc, folder) == MZ_LOG_FAILED && refused(tc, "/dev/null") == MZ_NO_LOG);
    SEEN(refused(tc, beside(folder, "/no/such/folder")) == MZ_LOG_FAILED);
    SEEN(mz_log_open(tc, path, &log, NULL) == MZ_OK && refused(empty, path) == MZ_LOG_IN_USE);
    mz_log_close(log);
    mz_tc_free(tc);
    mz_tc_free(empty);
}

/* A child that was forked before has the lock for a moment. */
static void is_waited_for(void) {
    mz_tc *tc = started(), *again = started();
    mz_log *log;
    SEEN(mz_log_open(tc, path, &log, NULL) == MZ_OK);
    pid_t child = fork();
    if (child == 0) {
        usleep(CHILD_LIVES);
        _exit(0);
    }
    mz_log_close(log);
    SEEN(mz_log_open(again, path, &log, NULL) == MZ_OK && waitpid(child, NULL, 0) == child);
    mz_log_close(log);
    mz_tc_free(tc);
    mz_tc_free(again);
}

/* ---- devices: of memory, that fail at their nth call, and whose syncs are counted */

typedef struct { long calls, fails_at, syncs; size_t kept; long wait, inside; } device;

static int fails(device *d) { return __atomic_add_fetch(&d->calls, 1, __ATOMIC_SEQ_CST) == d->fails_at; }

/* One thread is in it at a time. */
static int entered(device *d) {
    SEEN(__atomic_add_fetch(&d->inside, 1, __ATOMIC_SEQ_CST) == 1);
    if (d->wait) usleep((unsigned)d->wait / 2);
    SEEN(__atomic_sub_fetch(&d->inside, 1, __ATOMIC_SEQ_CST) == 0);
    return fails(d);
}

static int put(void *context, const void *bytes, size_t count) {
    device *d = (device *)context;
    (void)bytes;
    d->kept += count;
    return entered(d);
}

static int sync_all(void *context) {
    device *d = (device *)context;
    d->syncs++;
    return entered(d);
}

static void over(bank *b, device *d) {
    const mz_device device = {d, put, sync_all, put, NULL};
    mz_code c;
    memset(b, 0, sizeof *b);
    b->tc = started();
    for (int dc = 0; dc < DCS; dc++) b->dcs[dc] = mz_dc_new(100, 100000, &c);
    SEEN(!mz_log_over(NULL, &device) && !mz_log_over(b->tc, NULL) && !mz_session(b->tc));
    b->log = mz_log_over(b->tc, &device);
    if (!b->log || !mz_session(b->tc)) exit(2);
}

/* Behind the first failure each call is refused, and nothing more reaches the device. */
static void device_that_fails(void) {
    for (long at = 1, ended = 0; !ended; at++) {
        device d = {0, at, 0, 0, 0, 0};
        bank b;
        uint64_t until;
        int call = 0;
        over(&b, &d);
        while (call < CALLS && called_next(&b, call)) call++;
        ended = call == CALLS;
        SEEN(ended ? d.calls < at : d.calls == at);
        SEEN(ended || (mz_log_write(b.log, &until) == MZ_LOG_FAILED && mz_log_sync(b.log, 0) == MZ_LOG_FAILED));
        SEEN(ended || (mz_log_checkpoint(b.log, 0) == MZ_LOG_FAILED && d.calls == at));
        closed(&b);
    }
}

/* What is written is gathered, and reaches the device at once; by mz_log_flush without a sync. */
static void gathered(void) {
    device d = {0, 0, 0, 0, 0, 0};
    bank b;
    uint64_t until[4] = {0, 0, 0, 0}, procedure = 0, txn = 0;
    const uint64_t args[] = {1, 1};
    over(&b, &d);
    SEEN(mz_log_keep(b.log) == MZ_OK && d.calls == 1 && d.syncs == 0 && mz_find(b.tc, "deposit_here", &procedure) == MZ_OK);
    for (int i = 0; i < 4; i++) {
        mz_asked asked;
        const uint64_t own[] = {(uint64_t)i, args[1]};
        SEEN(mz_admit(b.tc, procedure, own, 2, &txn, NULL, NULL) == MZ_OK && mz_ask(b.tc, txn, &asked) == MZ_OK);
        SEEN(mz_log_write(b.log, &until[i]) == MZ_OK && d.calls == 1 && (!i || until[i] > until[i - 1]));
    }
    SEEN(mz_log_flush(b.log, until[0]) == MZ_OK && d.calls == 2 && d.syncs == 0 && d.kept == until[3]);
    SEEN(mz_log_flush(b.log, until[3]) == MZ_OK && d.calls == 2);
    SEEN(mz_log_sync(b.log, until[1]) == MZ_OK && d.calls == 3 && d.syncs == 1);
    SEEN(mz_log_sync(b.log, until[3]) == MZ_OK && d.calls == 3);
    SEEN(mz_admit(b.tc, procedure, (const uint64_t[]){9, 1}, 2, &txn, NULL, NULL) == MZ_OK && mz_log_keep(b.log) == MZ_OK);
    SEEN(d.calls == 5 && d.syncs == 2);
    SEEN(mz_admit(b.tc, procedure, (const uint64_t[]){10, 1}, 2, &txn, NULL, NULL) == MZ_OK && mz_log_write(b.log, &until[0]) == MZ_OK);
    closed(&b);
    SEEN(d.calls == 6 && d.syncs == 2 && d.kept == until[0]);
}

/* ---- a device that others take over: each writer has an epoch, and only that of the last one is taken */

enum { HOME = 1 << 16 };

static struct { uint8_t bytes[HOME]; size_t count; uint64_t epoch, session; mz_code says; long closed; } home;

typedef struct { uint64_t epoch; long checks; } writer;

static int refuses(const writer *w) { return w->epoch != home.epoch; }

static int append_home(void *context, const void *bytes, size_t count) {
    if (refuses((writer *)context) || home.count + count > HOME) return 1;
    memcpy(home.bytes + home.count, bytes, count);
    home.count += count;
    return 0;
}

static int sync_home(void *context) {
    ((writer *)context)->checks++;
    return refuses((writer *)context);
}

static int replace_home(void *context, const void *bytes, size_t count) {
    if (refuses((writer *)context)) return 1;
    home.count = 0;
    return append_home(context, bytes, count);
}

static void close_home(void *context) {
    (void)context;
    home.closed++;
}

static mz_code read_home(void *context, uint8_t **bytes, size_t *count, uint64_t *session) {
    ((writer *)context)->epoch = ++home.epoch;
    if (home.says != MZ_OK) return home.says;
    if (home.count && !(*bytes = (uint8_t *)malloc(home.count))) exit(2);
    if (home.count) memcpy(*bytes, home.bytes, home.count);
    *count = home.count;
    *session = home.session;
    return MZ_OK;
}

static mz_code taken_over(bank *b, writer *w, mz_log_found *found) {
    const mz_device device = {w, append_home, sync_home, replace_home, close_home};
    b->tc = started();
    return mz_log_take_over(b->tc, &device, read_home, &b->log, found);
}

/* Not by what the device says, nor from bytes that aren't whole. */
static void not_taken_over(mz_code says, mz_code why) {
    writer w = {0, 0};
    bank b;
    home.says = says;
    SEEN(taken_over(&b, &w, NULL) == why && !b.log && home.closed == 0);
    home.says = MZ_OK;
    mz_tc_free(b.tc);
}

static void closed_one(bank *b) {
    mz_log_close(b->log);
    mz_tc_free(b->tc);
}

/* The former one carries its last wire once more, meets the epoch, and leaves the log as it is. */
static void superseded(bank *former, bank *now, const mz_wire *last) {
    const size_t count = home.count;
    uint64_t until, procedure = 0, txn = 0;
    const uint64_t args[] = {7, 1};
    mz_reply repeated = {.said = MZ_ABSENT};
    SEEN(mz_dc_perform(former->dcs[last->record.dc], last, &repeated) == MZ_OK);
    SEEN(repeated.said == MZ_OLD || repeated.said == MZ_DONE || repeated.said == MZ_DONE_WAS);
    SEEN(mz_find(former->tc, "deposit_here", &procedure) == MZ_OK);
    SEEN(mz_admit(former->tc, procedure, args, 2, &txn, NULL, NULL) == MZ_OK && mz_log_write(former->log, &until) == MZ_OK);
    SEEN(mz_log_sync(former->log, until) == MZ_LOG_FAILED && mz_log_write(former->log, &until) == MZ_LOG_FAILED);
    SEEN(mz_log_check(former->log) == MZ_LOG_FAILED && home.count == count);
    SEEN(mz_log_check(now->log) == MZ_OK && called_next(now, 3) && home.count > count);
}

static mz_wire last_carried;

static mz_carried carry_and_keep(void *context, const mz_wire *wire, mz_reply *reply, mz_news *news) {
    last_carried = *wire;
    return carry(context, wire, reply, news);
}

static void succession(void) {
    writer first = {0, 0}, second = {0, 0}, idle = {0, 0};
    bank a, b, c;
    mz_log_found found;
    mz_asked asked;
    mz_receipt receipt;
    mz_next stopped;
    mz_code made;
    uint64_t procedure = 0, txn = 0;
    memset(&a, 0, sizeof a);
    memset(&b, 0, sizeof b);
    memset(&c, 0, sizeof c);
    home.session = 5;
    for (int d = 0; d < DCS; d++) a.dcs[d] = b.dcs[d] = c.dcs[d] = mz_dc_new(100, 1000, &made);
    SEEN(taken_over(&a, &first, &found) == MZ_OK && found.events == 0 && mz_session(a.tc) == 5);
    SEEN(called_next(&a, 0) && called_next(&a, 3));
    long checks = first.checks;
    SEEN(mz_log_check(a.log) == MZ_OK && first.checks == checks + 1);
    SEEN(mz_find(a.tc, "deposit_here", &procedure) == MZ_OK);
    SEEN(mz_admit(a.tc, procedure, (const uint64_t[]){1, 1}, 2, &txn, NULL, NULL) == MZ_OK);
    SEEN(mz_run(a.tc, txn, carry_and_keep, &a, TRIES, &receipt, &stopped) == MZ_OK && stopped == MZ_OVER);
    /* (the answer isn't in the log: the next one asks for it) */
    SEEN(taken_over(&b, &second, &found) == MZ_OK && mz_session(b.tc) == 5 && mz_open_count(b.tc) == 1);
    SEEN(found.events < mz_log_length(a.tc) && found.events == mz_log_length(b.tc));
    SEEN(mz_retake(b.tc, txn, &asked) == MZ_OK);
    SEEN(mz_run(b.tc, txn, carry, &b, TRIES, &receipt, &stopped) == MZ_OK && stopped == MZ_OVER && kept(&b) == MZ_OK);
    superseded(&a, &b, &last_carried);
    mz_dc_hear_mark(b.dcs[0], 0, mz_low_water(b.tc));
    SEEN(mz_log_checkpoint(b.log, mz_low_water(b.tc)) == MZ_OK && mz_log_length(b.tc) == 1);
    SEEN(taken_over(&c, &idle, &found) == MZ_OK && found.events == 1 && mz_log_check(b.log) == MZ_LOG_FAILED && called_next(&c, 4));
    closed_one(&a);
    closed_one(&b);
    closed_one(&c);
    SEEN(home.closed == 3);
    for (int d = 0; d < DCS; d++) mz_dc_free(a.dcs[d]);
}

static void no_succession(void) {
    home.closed = 0;
    SEEN(mz_log_check(NULL) == MZ_BAD_ARGUMENT && mz_log_take_over(NULL, NULL, read_home, NULL, NULL) == MZ_BAD_ARGUMENT);
    not_taken_over(MZ_LOG_FAILED, MZ_LOG_FAILED);
    not_taken_over(MZ_DAMAGED, MZ_DAMAGED);
    home.session = 0;
    not_taken_over(MZ_OK, MZ_NO_SESSION);
    home.session = 5;
    home.count--;
    not_taken_over(MZ_OK, MZ_DAMAGED);
    home.count++;
    home.bytes[home.count / 2] ^= 1;
    not_taken_over(MZ_OK, MZ_DAMAGED);
    memset(home.bytes, 'x', home.count);
    not_taken_over(MZ_OK, MZ_NO_LOG);
}

/* ---- threads that share syncs: each deposit waits for three, of SYNC microseconds */

typedef struct { bank *bank; uint64_t account; } worker;

static void *deposits(void *context) {
    worker *w = (worker *)context;
    const uint64_t args[] = {w->account, 1};
    pthread_mutex_lock(w->bank->lock);
    for (int turn = 0; turn < TURNS; turn++) SEEN(called(w->bank, "deposit_here", args, 2));
    pthread_mutex_unlock(w->bank->lock);
    return NULL;
}

static void shared_syncs(void) {
    device d = {0, 0, 0, 0, SYNC, 0};
    pthread_mutex_t lock = PTHREAD_MUTEX_INITIALIZER;
    pthread_t threads[THREADS];
    worker workers[THREADS];
    bank b;
    over(&b, &d);
    b.lock = &lock;
    for (uint64_t t = 0; t < THREADS; t++) {
        workers[t] = (worker){&b, t};
        if (pthread_create(&threads[t], NULL, deposits, &workers[t])) exit(2);
    }
    for (int t = 0; t < THREADS; t++) pthread_join(threads[t], NULL);
    SEEN(d.syncs * 2 < THREADS * TURNS * 3);
    printf("log: %d threads, %llu events, %ld syncs; ", THREADS, (unsigned long long)mz_log_length(b.tc), d.syncs);
    closed(&b);
}

int main(int count, char **words) {
    static content whole;
    if (count > 1) step = strtoul(words[1], NULL, 10);
    const char *room = getenv("TMPDIR");
    snprintf(folder, sizeof folder, "%s/mazzulpe-log-XXXXXX", room ? room : P_tmpdir);
    if (!mkdtemp(folder)) return 2;
    snprintf(path, sizeof path, "%s/log", folder);
    snprintf(other, sizeof other, "%s/other", folder);
    for (int cuts = 0; cuts < 2; cuts++) {
        unlink(path);
        lived(&whole, cuts);
        cut(&whole);
        changed(&whole, last_frame(&whole));
        session_changed(&whole);
        older_layout(&whole, cuts ? 2 : 1);
        goes_on(&whole);
    }
    sessions_set();
    not_opened(&whole);
    is_waited_for();
    device_that_fails();
    gathered();
    succession();
    no_succession();
    shared_syncs();
    printf("files cut and changed, one place in %zu\n", step);
    fflush(stdout);
    if (failures) return 1;
    return execlp("rm", "rm", "-r", folder, (char *)NULL);
}
