/* An engine that goes on while its log begins anew: threads move amounts between accounts at two data components, and a
 * further one makes a checkpoint behind each so many of them, through the gate of gate.h. What its log has is in its file
 * before a wire is carried and before anybody is told (kept_log.h), so it comes back however often it is killed.
 *
 *     online OBJECT FOLDER THREADS TRANSFERS BETWEEN KILLS
 *
 * It runs itself in FOLDER, ends that by SIGKILL so often, and looks each time what came back. The last life makes so many
 * transfers, in every other tenth of them without checkpoints, and says what these cost. Thread t takes from account t at
 * data component 0, so what is gone there is how many transfers it has made. */
#define _GNU_SOURCE
#include "mazzulpe_object.h"
#include "gate.h"
#include "kept_log.h"
#include "killed.h"
#include "online.h"

enum { TRIES = 3, THREADS = 64, TARGETS = 500, OPENING = 1 << 30, EVENTS = 10, PATIENCE = 60000, MOST = 120000 };

/* How often, how long in all and at most, in milliseconds. */
typedef struct { uint64_t count; double sum, longest; } timing;

/* What the parent sees of its child. */
typedef struct { watched life; volatile uint64_t told[THREADS]; } seen;

typedef struct {
    pthread_mutex_t lock; /* of all but what has its own */
    pthread_cond_t due;
    gate gate;
    mz_tc *tc;
    kept_log log;
    seen *seen;
    const char *object, *folder;
    char path[512];
    uint64_t deposits[DCS], move, threads, transfers, between;
    uint64_t done, wanted, is_due, without;   /* without: no checkpoints in this tenth */
    uint64_t open, barred;                    /* open: when the gate was closed last */
    timing waits, works, stalls, by_open[THREADS / 4 + 1], locks, tenths[2];
    double began, opened; /* opened: when the gate was, last */
} engine;

typedef struct { engine *engine; uint64_t number; } worker;

static double milliseconds(void) {
    struct timespec t;
    clock_gettime(CLOCK_MONOTONIC, &t);
    return (double)t.tv_sec * 1e3 + (double)t.tv_nsec / 1e6;
}

static void timed(timing *t, double took) {
    t->count++;
    t->sum += took;
    if (took > t->longest) t->longest = took;
}

/* ---- calls, under the lock */

/* Lets the lock go while the wire is carried, behind the log that says so. */
static mz_carried carry(void *context, const mz_wire *wire, mz_reply *reply, mz_news *news) {
    engine *e = (engine *)context;
    const mz_wire mine = *wire;
    log_keep(&e->log);
    pthread_mutex_unlock(&e->lock);
    mz_carried carried = storage_carry(&mine, reply, news);
    pthread_mutex_lock(&e->lock);
    return carried;
}

/* Passes the gate; where it was closed that is a stall, by how many were open then. The lock comes behind it. */
static void passed(engine *e) {
    if (!e->gate.closed) return;
    double began = milliseconds();
    gate_pass(&e->gate);
    timed(&e->stalls, e->opened - began);
    timed(&e->by_open[(e->open + 3) / 4], e->opened - began);
    timed(&e->locks, milliseconds() - e->opened);
}

/* Nobody answered: the array has no room for a further number, say, as long as another call stands still. */
static void rests(engine *e) {
    pthread_mutex_unlock(&e->lock);
    usleep(1000);
    pthread_mutex_lock(&e->lock);
}

static void call(engine *e, uint64_t procedure, const uint64_t *args, size_t count) {
    uint64_t txn = 0;
    mz_receipt receipt;
    mz_next stopped;
    mz_code c;
    for (;;) {
        passed(e);
        c = mz_admit(e->tc, procedure, args, count, &txn, NULL, NULL);
        if (c != MZ_BUSY) break;
        pthread_cond_wait(&e->gate.ended, &e->lock);
    }
    while (c == MZ_OK && (c = mz_run(e->tc, txn, carry, e, TRIES, &receipt, &stopped)) == MZ_OK && stopped == MZ_WAITS) rests(e);
    if (c != MZ_OK || stopped != MZ_OVER || receipt.outcome != MZ_COMMITTED) die("a call", c);
    log_keep(&e->log);
    gate_ended(&e->gate);
}

static void count_done(engine *e) {
    uint64_t tenth = e->wanted / 10 ? e->wanted / 10 : 1;
    e->done++;
    if (!e->without && mz_log_length(e->tc) > e->between * EVENTS) {
        e->is_due = 1;
        pthread_cond_signal(&e->due);
    }
    if (e->done % tenth) return;
    timed(&e->tenths[e->without], milliseconds() - e->began);
    e->began = milliseconds();
    e->without = !e->without;
}

static void *transfers(void *context) {
    worker *w = (worker *)context;
    engine *e = w->engine;
    pthread_mutex_lock(&e->lock);
    for (uint64_t turn = e->seen->told[w->number] + w->number; e->done < e->wanted; turn++) {
        const uint64_t args[] = {w->number, turn * 7919 % TARGETS, 1};
        call(e, e->move, args, 3);
        e->seen->told[w->number]++;
        count_done(e);
    }
    pthread_cond_signal(&e->due);
    pthread_mutex_unlock(&e->lock);
    return context;
}

/* ---- checkpoints */

/* Behind the closed gate: nothing is open, so that each number was answered. */
static void begin_anew(engine *e) {
    uint64_t mark = mz_low_water(e->tc);
    pthread_mutex_unlock(&e->lock);
    int kept = storage_keep(mark);
    pthread_mutex_lock(&e->lock);
    mz_code c = mz_checkpoint(e->tc, mark);
    if (!kept || c != MZ_OK) die("a checkpoint", c);
    log_begin(&e->log);
}

/* Under the lock, which it lets go while it waits. Admissions go on while the log's new file comes to the disk. */
static mz_code checkpoint(engine *e) {
    mz_open by;
    uint64_t done = e->done;
    double began = milliseconds();
    e->open = mz_open_count(e->tc);
    mz_code c = gate_close(&e->gate, e->tc, PATIENCE, &by);
    e->opened = milliseconds();
    if (c != MZ_OK) return c;
    if (e->done - done != e->open) die("the gate: another than the open ones has ended", c);
    timed(&e->waits, e->opened - began);
    began = e->opened;
    begin_anew(e);
    gate_open(&e->gate);
    e->opened = milliseconds();
    timed(&e->works, e->opened - began);
    pthread_mutex_unlock(&e->lock);
    log_sync(&e->log);
    pthread_mutex_lock(&e->lock);
    log_swap(&e->log);
    return c;
}

static void *checkpoints(void *context) {
    engine *e = (engine *)context;
    pthread_mutex_lock(&e->lock);
    while (e->done < e->wanted || e->is_due) {
        if (!e->is_due) pthread_cond_wait(&e->due, &e->lock);
        if (!e->is_due) continue;
        e->seen->life.in_checkpoint = 1;
        if (checkpoint(e) == MZ_OK) e->seen->life.checkpoints++;
        else e->barred++;
        e->seen->life.in_checkpoint = 0;
        e->is_due = 0;
    }
    pthread_mutex_unlock(&e->lock);
    return context;
}

/* ---- its life */

/* What was open when it died goes on to its end. */
static void end_open(engine *e) {
    mz_open open;
    mz_asked asked;
    mz_receipt receipt;
    mz_next stopped;
    for (uint64_t place = 0; mz_open_from(e->tc, place, &open) == MZ_OK; place = open.place + 1) {
        mz_code c = mz_retake(e->tc, open.txn, &asked);
        if (c == MZ_OK || c == MZ_NOTHING_OPEN) c = mz_run(e->tc, open.txn, carry, e, TRIES, &receipt, &stopped);
        if (c != MZ_OK || stopped != MZ_OVER) die("an open transaction", c);
    }
}

static void come_back(engine *e) {
    size_t count = 0;
    uint8_t *rows = log_read(&e->log, &count);
    const mz_note notes[DCS] = {storage_note(0), storage_note(1)};
    mz_code c = mz_recover(e->tc, rows, count, notes, DCS, NULL);
    if (c != MZ_OK) die("mz_recover", c);
    free(rows);
    for (uint16_t d = 0; d < DCS; d++) {
        int up = 0;
        if (notes[d].down) c = mz_redo(e->tc, d, carry, e, TRIES, &up);
        if (c != MZ_OK || up != notes[d].down) die("mz_redo", c);
    }
    end_open(e);
    for (uint64_t a = 0; a < DCS * TARGETS; a++) {
        uint64_t balance, args[] = {a / DCS, a % DCS ? 0 : OPENING};
        if (a % DCS == 0 && a / DCS >= e->threads) continue;
        if (!storage_balance((uint16_t)(a % DCS), a / DCS, &balance)) call(e, e->deposits[a % DCS], args, 2);
    }
    log_keep(&e->log);
}

/* Whether each thread was stalled once by a checkpoint at most, and there was one, where there had to be. */
static int is_short(const engine *e) {
    return !e->barred && e->stalls.count <= e->threads * e->works.count && (e->works.count || e->wanted / 10 <= e->between);
}

/* Whether no transfer that was told is lost, none was made twice, and the sum stays. An untold one for each thread may
 * have been made before it was killed. */
static int is_right(engine *e, uint64_t untold) {
    uint64_t sum = 0, balance = 0;
    for (uint64_t t = 0; t < e->threads; t++) {
        if (!storage_balance(0, t, &balance) || balance > OPENING) return 0;
        uint64_t made = OPENING - balance;
        if (made < e->seen->told[t] || made > e->seen->told[t] + untold) return 0;
        e->seen->told[t] = made;
        sum += balance;
    }
    for (uint64_t a = 0; a < TARGETS; a++) sum += storage_balance(1, a, &balance) ? balance : 0;
    return sum == e->threads * OPENING;
}

static void loaded(engine *e) {
    mz_code c;
    e->tc = mz_tc_new(DCS, &c);
    if (!e->tc || (c = mz_set_session(e->tc, SESSION)) != MZ_OK) die("mz_tc_new", c);
    if (!storage_open(e->folder, &e->log.image, &e->log.image_bytes)) die(e->folder, MZ_OK);
    snprintf(e->path, sizeof e->path, "%s/log", e->folder);
    log_open(&e->log, e->tc, e->path);
    c = mz_load_object_file(e->tc, e->object, NULL, NULL);
    if (c == MZ_OK) c = mz_find(e->tc, "deposit_here", &e->deposits[0]);
    if (c == MZ_OK) c = mz_find(e->tc, "deposit_there", &e->deposits[1]);
    if (c == MZ_OK) c = mz_find(e->tc, "move", &e->move);
    if (c != MZ_OK) die(e->object, c);
    pthread_mutex_init(&e->lock, NULL);
    pthread_cond_init(&e->due, NULL);
    if (gate_new(&e->gate, &e->lock)) die("gate_new", MZ_OK);
}

static void said(const char *what, const timing *t) {
    printf("%-28s %7llu, longest %8.3f ms, mean %8.3f ms\n", what, (unsigned long long)t->count, t->longest,
           t->count ? t->sum / (double)t->count : 0);
}

static void said_all(const engine *e) {
    char open[40];
    said("waits for what was open", &e->waits);
    said("the checkpoints' own work", &e->works);
    said("stalls of admissions", &e->stalls);
    for (size_t i = 0; i <= THREADS / 4; i++) {
        snprintf(open, sizeof open, i ? "  where %zu to %zu were open" : "  where none was open", 4 * i - 3, 4 * i);
        if (e->by_open[i].count) said(open, &e->by_open[i]);
    }
    said("the lock behind a stall", &e->locks);
    double each = (double)(e->wanted / 10), with = each / (e->tenths[0].sum / (double)e->tenths[0].count) * 1e3;
    double without = each / (e->tenths[1].sum / (double)e->tenths[1].count) * 1e3;
    printf("transfers a second: %.0f with checkpoints, %.0f without, %.2f of it\n", with, without, with / without);
}

static int live(void *context, int last) {
    engine *e = (engine *)context;
    pthread_t threads[THREADS], at_checkpoints;
    worker workers[THREADS];
    loaded(e);
    pthread_mutex_lock(&e->lock);
    come_back(e);
    pthread_mutex_unlock(&e->lock);
    if (!is_right(e, 1)) return 3;
    e->wanted = last ? e->transfers : UINT64_MAX;
    e->began = milliseconds();
    for (uint64_t t = 0; t < e->threads; t++) {
        workers[t] = (worker){e, t};
        if (pthread_create(&threads[t], NULL, transfers, &workers[t])) die("a thread", MZ_OK);
    }
    if (pthread_create(&at_checkpoints, NULL, checkpoints, e)) die("a thread", MZ_OK);
    for (uint64_t t = 0; t < e->threads; t++) pthread_join(threads[t], NULL);
    pthread_join(at_checkpoints, NULL);
    if (last) said_all(e);
    return is_right(e, 0) && is_short(e) ? 0 : 3;
}

int main(int count, char **words) {
    if (count != 7) die("online OBJECT FOLDER THREADS TRANSFERS BETWEEN KILLS", MZ_BAD_ARGUMENT);
    static engine e;
    seen *s = e.seen = (seen *)shared_by_lives(sizeof *s);
    uint64_t told = 0;
    e.object = words[1];
    e.folder = words[2];
    e.threads = strtoull(words[3], NULL, 10);
    e.transfers = strtoull(words[4], NULL, 10);
    e.between = strtoull(words[5], NULL, 10);
    if (e.threads < 1 || e.threads > THREADS) die("1 to 64 threads", MZ_BAD_ARGUMENT);
    int status = lives(live, &e, &s->life, strtoull(words[6], NULL, 10), MOST);
    for (int t = 0; t < THREADS; t++) told += s->told[t];
    printf("%llu transfers by %llu threads, %llu checkpoints, %llu kills, %llu of them within a checkpoint: %s\n", (unsigned long long)told,
           (unsigned long long)e.threads, (unsigned long long)s->life.checkpoints, (unsigned long long)s->life.kills,
           (unsigned long long)s->life.within, status ? "WRONG" : "none lost, the sum is right");
    return status;
}
