#include "client.h"
#include "mazzulpe_object.h"
#include "mazzulpe_pool.h"
#include "prometheus.h"
#include "storage.h"
#include <semaphore.h>

/* EVENTS: of a transfer. Accounts at data component 1 are as many as threads, and these at least. */
enum { LEAST_TARGETS = 20, OPENING = 1 << 30, EVENTS = 10, PATIENCE = 60000 };
enum { DEPOSIT_HERE, DEPOSIT_THERE, MOVE, TOUCH, BALANCES };

static const char *const names[] = {"deposit_here", "deposit_there", "move", "touch", "balances"};

typedef struct { mz_slot_value at[DCS]; } account;

typedef struct {
    const plan *plan;
    mz_tc *tc;
    mz_log *log;
    mz_pool *pool;
    char log_path[512], metrics_path[512]; /* metrics: as Prometheus' text, of each checkpoint and of the end */
    uint64_t done;
    int is_anew; /* a checkpoint is being made */
    uint64_t targets;
    sem_t ended;               /* calls that were submitted */
    account accounts[THREADS]; /* as they were looked at last */
} client;

typedef struct { client *client; uint64_t number; } worker;

static void die(const char *what, mz_code code) {
    fprintf(stderr, "%s: %s\n", what, mz_code_text(code));
    exit(1);
}

static uint64_t microseconds(void) {
    struct timespec t;
    clock_gettime(CLOCK_MONOTONIC, &t);
    return (uint64_t)t.tv_sec * 1000000 + (uint64_t)t.tv_nsec / 1000;
}

/* ---- a control: what the log's device is given, it gets before somebody is told, and not before a wire is carried */

static struct { pthread_mutex_t lock; mz_device device; uint8_t *bytes; size_t count, size; } held_back = {.lock = PTHREAD_MUTEX_INITIALIZER};

static int append_later(void *context, const void *bytes, size_t count) {
    (void)context;
    pthread_mutex_lock(&held_back.lock);
    if (held_back.count + count > held_back.size) {
        held_back.size = 2 * (held_back.count + count);
        held_back.bytes = (uint8_t *)realloc(held_back.bytes, held_back.size);
        if (!held_back.bytes) die("the log", MZ_MEMORY);
    }
    memcpy(held_back.bytes + held_back.count, bytes, count);
    held_back.count += count;
    pthread_mutex_unlock(&held_back.lock);
    return 0;
}

static int sync_later(void *context) { return (void)context, 0; }

static int replace_at_once(void *context, const void *bytes, size_t count) {
    (void)context;
    pthread_mutex_lock(&held_back.lock);
    held_back.count = 0;
    int failed = held_back.device.replace(held_back.device.context, bytes, count);
    pthread_mutex_unlock(&held_back.lock);
    return failed;
}

static void hold_back(mz_log *log) {
    held_back.device = log->device;
    log->device = (mz_device){NULL, append_later, sync_later, replace_at_once, NULL};
}

static int is_put_out(void) {
    const mz_device *to = &held_back.device;
    pthread_mutex_lock(&held_back.lock);
    int failed = held_back.count && (to->append(to->context, held_back.bytes, held_back.count) || to->sync(to->context));
    held_back.count = 0;
    pthread_mutex_unlock(&held_back.lock);
    return !failed;
}

/* ---- calls */

/* What its log answered. */
static void end_if_refused(client *e, mz_code c) {
    if (c == MZ_LOG_FAILED && e->plan->home) e->plan->home->superseded();
    if (c != MZ_OK) die("the log", c);
}

/* By one thread at a time for each data component. Each sixteenth reply is lost on its way, where that is wanted. */
static void carry(void *context, const mz_wire *wires, size_t count, mz_carried *carried, mz_reply *replies, mz_news *news) {
    static _Thread_local unsigned drawn;
    const client *e = (const client *)context;
    seen *s = e->plan->seen;
    if (!drawn) drawn = (unsigned)getpid() * DCS + wires[0].record.dc;
    for (size_t i = 0; i < count; i++) {
        if (wires[i].redo) __atomic_add_fetch(&s->redone, 1, __ATOMIC_SEQ_CST);
        if (e->plan->home) e->plan->home->carries(&wires[i]);
    }
    storage_carry_many(NULL, wires, count, carried, replies, news);
    for (size_t i = 0; i < count; i++) {
        if (carried[i] == MZ_RESTARTED) __atomic_add_fetch(&s->restarts, 1, __ATOMIC_SEQ_CST);
        int is_lost = e->plan->losing && (drawn = drawn * 1103515245u + 12345u) >> 28 == 0;
        if (is_lost && carried[i] == MZ_REPLIED) carried[i] = MZ_LOST;
    }
}

/* The pool has ended. A data component may answer what can't be where another has taken over, which the log says. */
static void end_call(client *e, const char *what, mz_code c) {
    if (c == MZ_LOG_FAILED) end_if_refused(e, c);
    if (e->plan->home) end_if_refused(e, mz_log_check(e->log));
    die(what, c);
}

static mz_outcome call(client *e, int which, const uint64_t *args, size_t count, mz_slot_value *values, size_t value_count) {
    uint64_t began = microseconds();
    mz_receipt receipt;
    mz_code c = mz_pool_call(e->pool, names[which], args, count, values, value_count, &receipt);
    if (c != MZ_OK) end_call(e, names[which], c);
    if (e->plan->unwritten && !is_put_out()) end_if_refused(e, MZ_LOG_FAILED);
    uint64_t took = microseconds() - began;
    if (took > e->plan->seen->longest) e->plan->seen->longest = took;
    return receipt.outcome;
}

static void count_ended(void *context, mz_code code, const mz_receipt *receipt) {
    client *e = (client *)context;
    (void)receipt;
    if (code != MZ_OK) end_call(e, "a call", code);
    sem_post(&e->ended);
}

static void submit(client *e, int which, uint64_t first, uint64_t second, account *held) {
    const uint64_t args[] = {first, second};
    mz_code c = mz_pool_submit(e->pool, names[which], args, 2, held ? held->at : NULL, held ? DCS : 0, count_ended, e);
    if (c != MZ_OK) end_call(e, names[which], c);
}

static void await(client *e, uint64_t calls) {
    while (calls) calls -= sem_wait(&e->ended) == 0;
    if (e->plan->unwritten && !is_put_out()) end_if_refused(e, MZ_LOG_FAILED);
}

/* Looks at all accounts, by calls that are open together. Where data component 0 has none, account 0 is looked at
 * there: a call that finds nothing there looks no further. */
static void look(client *e) {
    for (uint64_t a = 0; a < e->targets; a++) submit(e, BALANCES, a < e->plan->threads ? a : 0, a, &e->accounts[a]);
    await(e, e->targets);
}

/* What was in an account; 0 where there is none. */
static int is_there(const client *e, uint16_t dc, uint64_t account, uint64_t *balance) {
    const mz_slot_value *held = &e->accounts[account].at[dc];
    *balance = held->there ? mz_little(held->value, 8) : 0;
    return held->there;
}

/* ---- what the log says was written last: of an account at each data component */

typedef struct { int is_there; uint64_t balance; } row;
typedef struct { row at[DCS][THREADS]; } rows;

static void write_row(rows *all, const mz_event *asked) {
    row *r = &all->at[asked->record.dc][asked->record.key];
    r->is_there = asked->op != MZ_DELETE;
    r->balance = mz_little(asked->value, 8);
}

/* A log that begins anew doesn't say what was written before: a file does, under the last number that was given out
 * by then. */
static void base_path(const client *e, uint64_t number, int writer, char path[600]) {
    int length = snprintf(path, 600, "%s/base.%llu", e->plan->folder, (unsigned long long)number);
    if (writer) snprintf(path + length, 600 - (size_t)length, ".%d", writer);
}

static int is_base_read(const client *e, uint64_t number, rows *all) {
    char path[600];
    base_path(e, number, 0, path);
    FILE *f = fopen(path, "rb");
    int is_read = f && fread(all, sizeof *all, 1, f) == 1;
    if (f) fclose(f);
    return is_read;
}

/* Each balance that the whole log says, with what was cut off. 0: there is no memory, or no base of it. */
static int is_replayed(const client *e, rows *all) {
    mz_event event, *asked = (mz_event *)calloc(mz_last_number(e->tc) + 1, sizeof *asked);
    int is_whole = asked != NULL;
    memset(all, 0, sizeof *all);
    for (uint64_t i = 0; is_whole && mz_log_at(e->tc, i, &event) == MZ_OK; i++) {
        if (event.kind == MZ_EVENT_CHECKPOINT) is_whole = is_base_read(e, event.number, all);
        if (event.kind == MZ_EVENT_ASK || event.kind == MZ_EVENT_UNDO) asked[event.number] = event;
        int is_done = event.said == MZ_DONE || event.said == MZ_DONE_WAS;
        if (event.kind == MZ_EVENT_ANSWER && is_done) write_row(all, &asked[event.number]);
    }
    free(asked);
    return is_whole;
}

/* The base of a log that is to begin anew. Who was superseded may write it as well: its log, all of which is written,
 * is what the successor's begins with, and up to the same number it says the same. */
static int is_base_kept(const client *e) {
    char path[600], written[600];
    rows all;
    mz_pool_lock(e->pool);
    uint64_t number = mz_last_number(e->tc);
    int is = is_replayed(e, &all);
    mz_pool_unlock(e->pool);
    base_path(e, number, 0, path);
    base_path(e, number, getpid(), written);
    FILE *f = is ? fopen(written, "wb") : NULL;
    is = f && fwrite(&all, sizeof all, 1, f) == 1;
    if (f && fclose(f)) is = 0;
    return is && rename(written, path) == 0;
}

/* ---- checkpoints */

static int keep_mark(const client *e, uint16_t dc, uint64_t incarnation, uint64_t mark) {
    seen *s = e->plan->seen;
    s->keeps = 1;
    int kept = storage_keep(dc, incarnation, mark);
    s->keeps = 0;
    return kept;
}

/* The log has all that the mark counts, and nothing is open. */
static int keep(void *context, uint16_t dc, uint64_t incarnation, uint64_t mark) {
    const client *e = (const client *)context;
    if (e->plan->home && dc == 0 && !is_base_kept(e)) return 0;
    return keep_mark(e, dc, incarnation, mark);
}

/* A control: storage is told a mark before the log has all that it counts. */
static void tell_mark(client *e) {
    for (uint16_t d = 0; d < DCS; d++) {
        uint64_t incarnation = 0;
        mz_pool_lock(e->pool);
        uint64_t mark = mz_low_water(e->tc);
        mz_site(e->tc, d, &incarnation, NULL);
        mz_pool_unlock(e->pool);
        keep_mark(e, d, incarnation, mark);
    }
}

static void tell_metrics(client *e) {
    if (e->plan->home) return;
    mz_pool_lock(e->pool);
    int written = prometheus_write(e->metrics_path, e->tc, e->log, DCS);
    mz_pool_unlock(e->pool);
    if (!written) die(e->metrics_path, MZ_OK);
}

/* By one thread at a time, once the log is long enough. Where a data component is away it goes on as it was. */
static void checkpoint_if_due(client *e) {
    if (!e->plan->between || __atomic_exchange_n(&e->is_anew, 1, __ATOMIC_SEQ_CST)) return;
    mz_pool_lock(e->pool);
    int is_due = mz_log_length(e->tc) > e->plan->between * EVENTS;
    mz_pool_unlock(e->pool);
    if (is_due && e->plan->marks_first) tell_mark(e);
    mz_code c = is_due ? mz_pool_checkpoint(e->pool, PATIENCE, keep, e) : MZ_NOTHING_YET;
    if (c == MZ_LOG_FAILED) end_if_refused(e, c);
    e->plan->seen->checkpoints += c == MZ_OK;
    if (is_due) tell_metrics(e);
    __atomic_store_n(&e->is_anew, 0, __ATOMIC_SEQ_CST);
}

static void *transfers(void *context) {
    worker *w = (worker *)context;
    client *e = w->client;
    seen *s = e->plan->seen;
    for (uint64_t turn = s->told[w->number]; !s->last || __atomic_load_n(&e->done, __ATOMIC_SEQ_CST) < e->plan->transfers; turn++) {
        const uint64_t args[] = {w->number, (turn * 7919 + w->number) % e->targets, 1};
        if (call(e, MOVE, args, 3, NULL, 0) != MZ_COMMITTED) die("a transfer", MZ_OK);
        __atomic_add_fetch(&s->told[w->number], 1, __ATOMIC_SEQ_CST);
        if (e->plan->home) e->plan->home->tells();
        __atomic_add_fetch(&e->done, 1, __ATOMIC_SEQ_CST);
        if (e->plan->losing && turn % 2) call(e, TOUCH, args, 1, NULL, 0);
        checkpoint_if_due(e);
    }
    return context;
}

/* ---- its life */

/* Those that no earlier life has opened. */
static void open_accounts(client *e) {
    uint64_t balance, opened = 0;
    look(e);
    for (uint64_t a = 0; a < e->plan->threads; a++)
        if (!is_there(e, 0, a, &balance)) submit(e, DEPOSIT_HERE, a, OPENING, NULL), opened++;
    for (uint64_t a = 0; a < e->targets; a++)
        if (!is_there(e, 1, a, &balance)) submit(e, DEPOSIT_THERE, a, 0, NULL), opened++;
    await(e, opened);
    e->plan->seen->opened = 1;
}

static void come_back(client *e) {
    mz_log_found found;
    const log_home *home = e->plan->home;
    const mz_pool_options options = {.unsynced = !e->plan->synced};
    uint64_t count = 0;
    mz_code c = home ? home->open(e->tc, &e->log, &found) : mz_log_open(e->tc, e->log_path, &e->log, &found);
    if (c == MZ_LOG_FAILED && home) home->superseded();
    if (c != MZ_OK) die(home ? "the log" : e->log_path, c);
    if (!storage_open(e->plan->folder, mz_session(e->tc))) die(e->plan->folder, MZ_MEMORY);
    if (e->plan->unwritten) hold_back(e->log);
    c = mz_pool_open(e->tc, e->log, carry, e, e->plan->threads, &options, &e->pool);
    if (c == MZ_OK) c = mz_pool_come_back(e->pool, &count);
    if (c != MZ_OK) end_call(e, "an open transaction", c);
    e->plan->seen->came_back += count;
    if (!e->plan->seen->opened) open_accounts(e);
}

/* Whether no transfer that was told is lost, none was made twice, and the sum stays. An untold one for each thread may
 * have been made before it was killed. */
static int is_right(client *e, uint64_t untold) {
    uint64_t sum = 0, balance = 0;
    seen *s = e->plan->seen;
    look(e);
    for (uint64_t t = 0; t < e->plan->threads; t++) {
        if (!is_there(e, 0, t, &balance) || balance > OPENING) return 0;
        uint64_t made = OPENING - balance;
        if (made < s->told[t] || made > s->told[t] + untold) return 0;
        if (!e->plan->home) s->told[t] = made;
        sum += balance;
    }
    for (uint64_t a = 0; a < e->targets; a++) sum += is_there(e, 1, a, &balance) ? balance : 0;
    return sum == e->plan->threads * OPENING;
}

/* Each balance is the one that was written last. */
static int is_as_replayed(client *e) {
    static rows all;
    mz_pool_lock(e->pool);
    int is = is_replayed(e, &all);
    mz_pool_unlock(e->pool);
    if (!is) return 0;
    look(e);
    for (uint16_t d = 0; d < DCS; d++)
        for (uint64_t a = 0; a < (d ? e->targets : e->plan->threads); a++) {
            uint64_t balance;
            const row *r = &all.at[d][a];
            if (is_there(e, d, a, &balance) != r->is_there || (r->is_there && balance != r->balance)) return 0;
        }
    return 1;
}

static void loaded(client *e, const plan *p) {
    mz_code c;
    e->plan = p;
    e->targets = p->threads < LEAST_TARGETS ? LEAST_TARGETS : p->threads;
    if (sem_init(&e->ended, 0, 0)) die("a semaphore", MZ_MEMORY);
    e->tc = mz_tc_new(DCS, &c);
    if (!e->tc) die("mz_tc_new", c);
    snprintf(e->log_path, sizeof e->log_path, "%s/log", p->folder);
    snprintf(e->metrics_path, sizeof e->metrics_path, "%s/metrics", p->folder);
    c = mz_load_object_file(e->tc, p->object, NULL, NULL);
    if (c != MZ_OK) die(p->object, c);
}

int client_live(const plan *p) {
    static client e;
    pthread_t threads[THREADS];
    worker workers[THREADS];
    loaded(&e, p);
    come_back(&e);
    checkpoint_if_due(&e); /* lives that end early make the log longer, which each look goes through */
    if (!p->home && !is_right(&e, 1)) return 3;
    tell_metrics(&e);
    uint64_t began = microseconds();
    for (uint64_t t = 0; t < p->threads; t++) {
        workers[t] = (worker){&e, t};
        if (pthread_create(&threads[t], NULL, transfers, &workers[t])) die("a thread", MZ_OK);
    }
    for (uint64_t t = 0; t < p->threads; t++) pthread_join(threads[t], NULL);
    p->seen->took = microseconds() - began;
    int right = p->home || is_right(&e, 0);
    tell_metrics(&e);
    return right ? 0 : 3;
}

int client_check(const plan *p, uint64_t untold) {
    static client e;
    loaded(&e, p);
    come_back(&e);
    return is_as_replayed(&e) && is_right(&e, untold) ? 0 : 3;
}

uint64_t transfers_told(const plan *p) {
    uint64_t told = 0;
    for (uint64_t t = 0; t < p->threads; t++) told += p->seen->told[t];
    return told;
}
