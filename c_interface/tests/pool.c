/* mazzulpe_pool.h over the library's data components: which calls go together, how many, and in which order; one sync a round, before
 * anything is carried or told; components that are silent, restart, have forgotten or have no room; what ends a pool; what comes back
 * from the log; calls by their callers' own threads, and what has them handed over. Then threads over components that lose replies, give
 * late ones and restart, with checkpoints: no call is lost, and none is made twice. Nothing that is expected depends on how quick it is. */
#define _GNU_SOURCE
#include "mazzulpe_object.h"
#include "deleting.h"
#include "pool_storage.h"

enum { MANY = 64, OPENING = 1000000, THREADS = 8, TURNS = 300, LONG = 600000, REST = 4 /* ms */ };

static char folder[256], path[280];

/* What was heard and told. */
typedef struct {
    pthread_mutex_t lock;
    pthread_cond_t moved;
    uint64_t told, committed, by_code, in_order, silences, answers, losses; /* by_code: with the code that was expected */
    mz_code expected;
} tally;

typedef struct { mz_tc *tc; mz_log *log; mz_pool *pool; storage s; tally t; } bank;

/* A submitted call, and the place of its end in the log. */
typedef struct { bank *of; uint64_t number, place; } submitted;

static void tally_new(tally *t) {
    memset(t, 0, sizeof *t);
    if (pthread_mutex_init(&t->lock, NULL) || pthread_cond_init(&t->moved, NULL)) exit(2);
}

static void heard(void *context, uint16_t dc, mz_code code) {
    tally *t = (tally *)context;
    (void)dc;
    pthread_mutex_lock(&t->lock);
    t->silences += code == MZ_SILENT;
    t->answers += code == MZ_OK;
    t->losses += code == MZ_FORGOTTEN;
    pthread_cond_broadcast(&t->moved);
    pthread_mutex_unlock(&t->lock);
}

static void told(void *context, mz_code code, const mz_receipt *receipt) {
    submitted *call = (submitted *)context;
    tally *t = &call->of->t;
    looks_at_log(&call->of->s);
    pthread_mutex_lock(&t->lock);
    t->in_order += call->number == t->told;
    t->told++;
    t->by_code += code == t->expected;
    t->committed += code == MZ_OK && receipt->outcome == MZ_COMMITTED;
    call->place = receipt->place;
    pthread_cond_broadcast(&t->moved);
    pthread_mutex_unlock(&t->lock);
}

static void until(tally *t, const uint64_t *count, uint64_t is) {
    pthread_mutex_lock(&t->lock);
    while (*count < is) pthread_cond_wait(&t->moved, &t->lock);
    pthread_mutex_unlock(&t->lock);
}

/* Looks until the pool says so of itself. */
static void until_counted(bank *b, uint64_t open, uint64_t waiting, uint64_t queued) {
    const struct timespec moment = {0, 100000};
    mz_pool_counts n;
    while (mz_pool_count(b->pool, &n) == MZ_OK && (n.open < open || n.waiting < waiting || n.queued < queued)) nanosleep(&moment, NULL);
}

/* Until no call is under way, and the pool's threads have nothing to do. */
static void until_idle(bank *b) {
    const struct timespec moment = {0, 100000};
    for (int idle = 0; !idle; nanosleep(&moment, NULL)) {
        pthread_mutex_lock(&b->pool->queue_lock);
        idle = !b->pool->in_use;
        for (int d = 0; d < DCS; d++) idle &= b->pool->lanes[d]->is_idle && !b->pool->lanes[d]->is_wanted;
        pthread_mutex_unlock(&b->pool->queue_lock);
    }
}

/* ---- a bank */

static void loaded(bank *b, const char *log) {
    mz_code c;
    uint64_t number;
    b->log = NULL;
    b->tc = mz_tc_new(DCS, &c);
    if (!b->tc || mz_load_object_file(b->tc, "build/bank.o", NULL, NULL) != MZ_OK || load_deleting(b->tc, &number) != MZ_OK) exit(2);
    SEEN(!log || mz_log_open(b->tc, log, &b->log, NULL) == MZ_OK);
    b->s.log = b->log;
}

static void pooled(bank *b, size_t calls_at_once) {
    const mz_pool_options options = {b->s.is_unsynced, REST, heard, &b->t};
    SEEN(mz_pool_open(b->tc, b->log, carry, &b->s, calls_at_once, &options, &b->pool) == MZ_OK);
}

/* Of this many records in each data component, over a log in a new file. */
static void opened_over(bank *b, uint64_t rows, size_t calls_at_once, int unsynced) {
    char other[300];
    memset(b, 0, sizeof *b);
    unlink(path);
    snprintf(other, sizeof other, "%s.session", path);
    unlink(other);
    tally_new(&b->t);
    storage_new(&b->s, rows);
    b->s.is_unsynced = unsynced;
    loaded(b, path);
    pooled(b, calls_at_once);
}

static void opened(bank *b, uint64_t rows, size_t calls_at_once) { opened_over(b, rows, calls_at_once, 0); }

static void put_away(bank *b) {
    mz_log_close(b->log);
    mz_tc_free(b->tc);
}

static void closed(bank *b) {
    mz_pool_close(b->pool, LONG);
    put_away(b);
    storage_free(&b->s);
}

static mz_code call(bank *b, const char *name, uint64_t first, uint64_t second, uint64_t third, mz_receipt *receipt) {
    const uint64_t args[] = {first, second, third};
    size_t count = !strcmp(name, "move") ? 3 : !strcmp(name, "touch") ? 1 : !strcmp(name, "deletes") ? 0 : 2;
    return mz_pool_call(b->pool, name, args, count, NULL, 0, receipt);
}

static int commits(bank *b, const char *name, uint64_t first, uint64_t second, uint64_t third) {
    mz_receipt receipt;
    return call(b, name, first, second, third, &receipt) == MZ_OK && receipt.outcome == MZ_COMMITTED;
}

static void submit(bank *b, submitted *call, uint64_t number, const char *name, uint64_t first, uint64_t second) {
    const uint64_t args[] = {first, second};
    call->of = b;
    call->number = number;
    SEEN(mz_pool_submit(b->pool, name, args, 2, NULL, 0, told, call) == MZ_OK);
}

/* Submits `count` calls of a procedure of two arguments, on accounts from `account` on, or on that alone. */
static void submits(bank *b, submitted *calls, uint64_t count, const char *name, uint64_t account, int apart) {
    for (uint64_t i = 0; i < count; i++) submit(b, &calls[i], i, name, account + (apart ? i : 0), 5);
}

/* ---- calls */

static void one_by_one(void) {
    static bank b;
    mz_receipt receipt;
    mz_slot_value values[3];
    mz_pool_counts n;
    const uint64_t args[] = {1, 2};
    opened(&b, 100, 1);
    b.s.is_alone = 1;
    SEEN(commits(&b, "deposit_here", 1, 10, 0) && commits(&b, "deposit_there", 2, 20, 0));
    SEEN(mz_pool_call(b.pool, "balances", args, 2, values, 3, &receipt) == MZ_OK && receipt.outcome == MZ_COMMITTED);
    SEEN(values[0].there && mz_little(values[0].value, 8) == 10 && values[1].there && mz_little(values[1].value, 8) == 20);
    SEEN(!values[2].there);
    SEEN(call(&b, "touch", 1, 0, 0, &receipt) == MZ_OK && receipt.outcome == MZ_ABORTED && receipt.value == 7);
    SEEN(call(&b, "nobody's", 1, 0, 0, &receipt) == MZ_NO_PROCEDURE);
    SEEN(mz_pool_call(b.pool, "move", args, 2, NULL, 0, &receipt) == MZ_ARGUMENT_COUNT);
    SEEN(mz_pool_call(b.pool, "move", args, 9, NULL, 0, &receipt) == MZ_BAD_ARGUMENT);
    SEEN(mz_pool_call(b.pool, NULL, args, 2, NULL, 0, &receipt) == MZ_BAD_ARGUMENT);
    SEEN(mz_pool_call(b.pool, "move", args, 2, NULL, 1, &receipt) == MZ_BAD_ARGUMENT);
    SEEN(mz_pool_submit(b.pool, "move", args, 2, NULL, 0, NULL, NULL) == MZ_BAD_ARGUMENT);
    SEEN(mz_pool_open(b.tc, NULL, carry, &b.s, 0, NULL, &b.pool) == MZ_BAD_ARGUMENT);
    SEEN(mz_pool_count(b.pool, &n) == MZ_OK && n.told == 6 && n.open == 0 && n.queued == 0 && n.waiting == 0);
    closed(&b);
}

/* Those that come while a batch is on its way go together, by one sync each time; no more of them than are wanted. */
static void go_together(void) {
    static bank b;
    static submitted calls[MANY];
    mz_log_counts before, after;
    component *c = &b.s.of[0];
    opened(&b, 100, MANY);
    b.s.is_alone = 1;
    SEEN(mz_log_count(b.log, &before) == MZ_OK);
    hold(c);
    submits(&b, calls, MANY, "deposit_here", 0, 1);
    until_counted(&b, MANY, 0, 0);
    let_go(c);
    until(&b.t, &b.t.told, MANY);
    mz_pool_lock(b.pool);
    SEEN(mz_log_count(b.log, &after) == MZ_OK);
    mz_pool_unlock(b.pool);
    SEEN(b.t.committed == MANY && c->batches <= 4 && c->largest >= MANY / 2 && after.syncs - before.syncs <= 5);
    closed(&b);
    opened(&b, 100, 4);
    submits(&b, calls, MANY, "deposit_here", 0, 1);
    until(&b.t, &b.t.told, MANY);
    SEEN(b.t.committed == MANY && c->largest <= 4);
    closed(&b);
}

static mz_carried receive(void *of, int sent, const mz_wire *wires, size_t count, mz_reply *replies, mz_news *news) {
    component *c = (component *)of;
    mz_carried carried = MZ_REPLIED;
    (void)sent;
    pthread_mutex_lock(&c->lock);
    c->batches++;
    for (size_t i = 0; i < count && carried == MZ_REPLIED; i++) carried = performed(c, &wires[i], &replies[i], news);
    pthread_mutex_unlock(&c->lock);
    return carried;
}

/* Over components that take batches, of which one isn't there: its calls wait, and no others. */
static void over_batches(void) {
    static bank b;
    static submitted calls[MANY + 1];
    mz_batched component = {&b.s.of[0], NULL, receive, 16};
    const mz_pool_options options = {0, REST, heard, &b.t};
    opened(&b, 100, 1);
    mz_pool_close(b.pool, LONG);
    SEEN(mz_pool_open_batched(b.tc, b.log, NULL, 1, MANY, &options, &b.pool) == MZ_BAD_ARGUMENT);
    SEEN(mz_pool_open_batched(b.tc, b.log, &component, 1, MANY, &options, &b.pool) == MZ_OK);
    b.t.expected = MZ_NOT_OVER;
    submit(&b, &calls[MANY], 0, "deposit_there", 1, 5);
    submits(&b, calls, MANY, "deposit_here", 0, 1);
    until(&b.t, &b.t.committed, MANY);
    until(&b.t, &b.t.silences, 1);
    mz_pool_close(b.pool, 0);
    SEEN(b.t.told == MANY + 1 && b.t.by_code == 1 && b.s.of[0].batches >= 2 * MANY / 16);
    for (uint64_t a = 0; a < MANY; a++) SEEN(balance_at(&b.s, 0, a) == 5);
    put_away(&b);
    storage_free(&b.s);
}

/* Calls on one record: each waits for the one before it, and none is tried at each end. */
static void wait_in_order(void) {
    static bank b;
    static submitted calls[MANY];
    mz_counts n;
    opened(&b, 100, MANY);
    hold(&b.s.of[0]);
    submits(&b, calls, MANY, "deposit_here", 7, 0);
    until_counted(&b, 1, MANY - 1, 0);
    let_go(&b.s.of[0]);
    until(&b.t, &b.t.told, MANY);
    SEEN(b.t.committed == MANY && b.t.in_order == MANY && balance_at(&b.s, 0, 7) == 5 * MANY);
    mz_pool_lock(b.pool);
    SEEN(mz_count(b.tc, &n) == MZ_OK && n.busy < 2 * MANY);
    mz_pool_unlock(b.pool);
    closed(&b);
}

/* A call that waits for a record that others read, of which each comes before the one before it ends: once it has been busy often,
 * none is admitted before it. */
static void nobody_starves(void) {
    static bank b;
    static submitted readers[MZ_POOL_PATIENCE + 2], writer;
    component *there = &b.s.of[1];
    uint64_t reads = 0;
    opened(&b, 100, 4);
    SEEN(commits(&b, "deposit_here", 1, 10, 0) && commits(&b, "deposit_there", 1, 10, 0));
    hold(there);
    submit(&b, &readers[0], reads++, "balances", 1, 1);
    until_within(there);
    submit(&b, &writer, MZ_POOL_PATIENCE, "deposit_here", 1, 5);
    until_counted(&b, 1, 1, 0);
    while (reads < MZ_POOL_PATIENCE) {
        submit(&b, &readers[reads], reads, "balances", 1, 1);
        until_counted(&b, 2, 1, 0);
        let_one_go(there);
        until(&b.t, &b.t.told, reads++);
        until_within(there);
    }
    submit(&b, &readers[reads], reads + 1, "balances", 1, 1);
    until_counted(&b, 1, 1, 1);
    let_go(there);
    until(&b.t, &b.t.told, MZ_POOL_PATIENCE + 2);
    SEEN(b.t.committed == MZ_POOL_PATIENCE + 2 && writer.place < readers[reads].place && balance_at(&b.s, 0, 1) == 15);
    closed(&b);
}

/* ---- components */

/* One that is away holds up its own calls alone; its silence is told once, and its answer. */
static void is_silent(void) {
    static bank b;
    static submitted calls[MANY];
    static char text[4096];
    opened(&b, 100, MANY);
    b.s.of[0].silent = 1 << 30;
    uint64_t began = mz_pool_now();
    submits(&b, calls, MANY / 2, "deposit_here", 0, 1);
    until(&b.t, &b.t.silences, 1);
    for (uint64_t i = 0; i < 20; i++) SEEN(commits(&b, "deposit_there", i, 1, 0));
    SEEN(mz_pool_checkpoint(b.pool, 20, keep, &b.s) == MZ_TXNS_OPEN && commits(&b, "deposit_there", 30, 1, 0));
    FILE *to = fmemopen(text, sizeof text, "w");
    SEEN(to && mz_pool_print(b.pool, to) == MZ_OK && !fclose(to));
    SEEN(strstr(text, "calls: 32 open, 0 queued, 0 wait for another, 21 ended\n"));
    SEEN(strstr(text, "component 0: up, incarnation 0, rests 4 ms, Silent\n"));
    SEEN(strstr(text, "component 1: up, incarnation 0, rests 0 ms, OK\n"));
    pthread_mutex_lock(&b.s.of[0].lock);
    b.s.of[0].silent = 0;
    SEEN(b.s.of[0].batches <= 4 + (mz_pool_now() - began) / 1000 / REST);
    pthread_mutex_unlock(&b.s.of[0].lock);
    until(&b.t, &b.t.committed, MANY / 2);
    SEEN(b.t.silences == 1 && b.t.answers == 1);
    SEEN(mz_pool_checkpoint(b.pool, LONG, keep, &b.s) == MZ_OK);
    mz_pool_lock(b.pool);
    SEEN(mz_log_length(b.tc) == 1);
    mz_pool_unlock(b.pool);
    closed(&b);
}

static int is_barred;

static void *barred(void *context) {
    bank *b = (bank *)context;
    SEEN(mz_pool_checkpoint(b->pool, 50, keep, &b->s) == MZ_TXNS_OPEN);
    __atomic_store_n(&is_barred, 1, __ATOMIC_SEQ_CST);
    return NULL;
}

/* A checkpoint that comes to nothing: who came meanwhile is admitted then. */
static void admits_again(void) {
    static bank b;
    static submitted first, next;
    pthread_t thread;
    int draining = 0;
    opened(&b, 100, MANY);
    hold(&b.s.of[0]);
    submit(&b, &first, 1, "deposit_here", 1, 5);
    until_within(&b.s.of[0]);
    if (pthread_create(&thread, NULL, barred, &b)) exit(2);
    while (!draining && !__atomic_load_n(&is_barred, __ATOMIC_SEQ_CST)) {
        pthread_mutex_lock(&b.pool->queue_lock);
        draining = b.pool->draining;
        pthread_mutex_unlock(&b.pool->queue_lock);
    }
    submit(&b, &next, 0, "deposit_there", 1, 5);
    until(&b.t, &b.t.committed, 1);
    pthread_join(thread, NULL);
    let_go(&b.s.of[0]);
    until(&b.t, &b.t.committed, 2);
    SEEN(b.t.in_order == 2);
    closed(&b);
}

/* One that restarts with a wire on its way: all that it lost is redone. */
static void restarts(void) {
    static bank b;
    static submitted calls[MANY];
    mz_pool_counts n;
    component *c = &b.s.of[0];
    opened(&b, 1000, MANY);
    for (uint64_t i = 0; i < 100; i++) SEEN(commits(&b, "deposit_here", i, 1, 0));
    hold(c);
    submits(&b, calls, MANY, "deposit_here", 200, 1);
    until_within(c);
    pthread_mutex_lock(&c->lock);
    component_restarts(c);
    pthread_mutex_unlock(&c->lock);
    let_go(c);
    until(&b.t, &b.t.committed, MANY);
    SEEN(mz_pool_count(b.pool, &n) == MZ_OK && n.redone >= 100);
    for (uint64_t i = 0; i < 100; i++) SEEN(balance_at(&b.s, 0, i) == 1);
    closed(&b);
}

/* One that lost what the log can't redo: that is told once, no call gets on there, and those that are open are left open. */
static void has_forgotten(void) {
    static bank b;
    static submitted lost;
    opened(&b, 100, MANY);
    SEEN(commits(&b, "deposit_here", 1, 1, 0) && mz_pool_checkpoint(b.pool, LONG, keep, &b.s) == MZ_OK);
    pthread_mutex_lock(&b.s.of[0].lock);
    component_restarts(&b.s.of[0]);
    b.s.of[0].news.mark = 0;
    pthread_mutex_unlock(&b.s.of[0].lock);
    b.t.expected = MZ_NOT_OVER;
    submits(&b, &lost, 1, "deposit_here", 2, 1);
    until(&b.t, &b.t.losses, 1);
    SEEN(commits(&b, "deposit_there", 1, 1, 0));
    mz_pool_close(b.pool, 20);
    SEEN(b.t.losses == 1 && b.t.by_code == 1 && mz_open_count(b.tc) == 1);
    put_away(&b);
    storage_free(&b.s);
}

/* One that is full, and undos that find no room: they are made again, and are stuck after the fourth. */
static void has_no_room(void) {
    static bank b;
    mz_receipt receipt;
    opened(&b, 2, MANY);
    SEEN(commits(&b, "deposit_here", 1, 1, 0) && commits(&b, "deposit_here", 2, 1, 0));
    SEEN(call(&b, "deposit_here", 3, 1, 0, &receipt) == MZ_OK && receipt.outcome == MZ_ENDED_NO_ROOM);
    b.s.of[0].full = 3;
    uint64_t began = mz_pool_now();
    SEEN(call(&b, "deletes", 0, 0, 0, &receipt) == MZ_OK && receipt.outcome == MZ_ABORTED && b.s.of[0].full == 0);
    SEEN(balance_at(&b.s, 0, 1) == 1 && mz_pool_now() - began >= (4 + 8 + 16) * REST * 1000);
    b.s.of[0].full = 4;
    SEEN(call(&b, "deletes", 0, 0, 0, &receipt) == MZ_NOT_OVER && call(&b, "deposit_here", 1, 1, 0, &receipt) == MZ_BUSY);
    SEEN(commits(&b, "deposit_here", 2, 1, 0) && mz_pool_checkpoint(b.pool, LONG, keep, &b.s) == MZ_TXNS_OPEN);
    closed(&b);
}

/* ---- what ends a pool */

static mz_carried then_said(component *c, int way) {
    pthread_mutex_lock(&c->lock);
    c->said = way == 0 ? MZ_DUPLICATE : way == 1 ? MZ_OLD : (mz_said)0;
    c->instead = way == 2 ? MZ_RETIRED : way == 3 ? MZ_UNWRITTEN : MZ_LOST;
    pthread_mutex_unlock(&c->lock);
    return c->instead;
}

/* All that are open, wait or are queued are told, and whoever comes later. */
static void ends(void) {
    static const mz_code codes[] = {MZ_DIVERGED, MZ_DEPOSED, MZ_DEPOSED, MZ_LOG_FAILED};
    static bank b;
    static submitted calls[2 * MANY];
    mz_receipt receipt;
    for (int way = 0; way < 4; way++) {
        opened(&b, 1000, MANY / 2);
        hold(&b.s.of[0]);
        b.t.expected = codes[way];
        submits(&b, calls, MANY, "deposit_here", 5, 0);
        submits(&b, calls + MANY, MANY, "deposit_here", 100, 1);
        until_within(&b.s.of[0]);
        (void)then_said(&b.s.of[0], way);
        let_go(&b.s.of[0]);
        until(&b.t, &b.t.told, 2 * MANY);
        SEEN(b.t.by_code == 2 * MANY && call(&b, "deposit_there", 1, 1, 0, &receipt) == codes[way]);
        SEEN(mz_pool_checkpoint(b.pool, LONG, keep, &b.s) == codes[way] && mz_pool_come_back(b.pool, NULL) == codes[way]);
        closed(&b);
    }
}

/* A device whose sync fails from some time on. */
static int device_fails;
static int no_append(void *context, const void *bytes, size_t count) { return !context && !bytes && !count; }
static int may_sync(void *context) { return (void)context, __atomic_load_n(&device_fails, __ATOMIC_SEQ_CST); }

static void log_fails(void) {
    static bank b;
    mz_receipt receipt;
    const mz_device device = {&b, no_append, may_sync, no_append, NULL};
    memset(&b, 0, sizeof b);
    tally_new(&b.t);
    storage_new(&b.s, 100);
    loaded(&b, NULL);
    b.log = mz_log_over(b.tc, &device);
    pooled(&b, MANY);
    SEEN(commits(&b, "deposit_here", 1, 1, 0));
    uint64_t batches = b.s.of[0].batches;
    until_idle(&b);
    __atomic_store_n(&device_fails, 1, __ATOMIC_SEQ_CST);
    SEEN(call(&b, "deposit_here", 1, 1, 0, &receipt) == MZ_LOG_FAILED && b.s.of[0].batches == batches);
    SEEN(call(&b, "deposit_there", 1, 1, 0, &receipt) == MZ_LOG_FAILED);
    closed(&b);
}

/* ---- lives */

/* Calls that were open when the former one ended, some of them to be undone, come back from the log. */
static void comes_back(void) {
    static bank b;
    static submitted calls[MANY], touches[MANY];
    uint64_t count = 0;
    opened(&b, 1000, 2 * MANY);
    for (uint64_t i = 0; i < MANY; i++) SEEN(commits(&b, "deposit_here", i, 10, 0));
    b.s.of[0].silent = 1 << 30;
    b.t.expected = MZ_NOT_OVER;
    submits(&b, calls, MANY / 2, "deposit_here", 0, 1);
    for (uint64_t i = MANY / 2; i < MANY; i++) {
        touches[i].of = &b;
        SEEN(mz_pool_submit(b.pool, "touch", &i, 1, NULL, 0, told, &touches[i]) == MZ_OK);
    }
    until_counted(&b, MANY, 0, 0);
    until(&b.t, &b.t.silences, 1);
    mz_pool_close(b.pool, 0);
    SEEN(b.t.told == MANY && b.t.by_code == MANY && mz_open_count(b.tc) == MANY);
    put_away(&b);
    b.s.of[0].silent = 0;
    loaded(&b, path);
    pooled(&b, 4);
    SEEN(mz_pool_come_back(b.pool, &count) == MZ_OK && count == MANY);
    for (uint64_t i = 0; i < MANY; i++) SEEN(balance_at(&b.s, 0, i) == (i < MANY / 2 ? 15 : 10));
    SEEN(commits(&b, "deposit_here", 1, 1, 0));
    closed(&b);
}

/* ---- rounds by a caller's thread */

/* A call of a thread of its own, held on its way to component 0, which counts what this thread carries. */
typedef struct { bank *of; pthread_t thread; mz_code code; mz_receipt receipt; } caller;

static void *calls_here(void *context) {
    caller *one = (caller *)context;
    watch(&one->of->s.of[0], pthread_self());
    one->code = call(one->of, "deposit_here", 90, 5, 0, &one->receipt);
    return context;
}

static void held_call(bank *b, caller *one) {
    until_idle(b);
    one->of = b;
    hold(&b->s.of[0]);
    if (pthread_create(&one->thread, NULL, calls_here, one)) exit(2);
    until_within(&b->s.of[0]);
}

static void joined(const caller *one, mz_code code) {
    pthread_join(one->thread, NULL);
    SEEN(one->code == code && (code != MZ_OK || one->receipt.outcome == MZ_COMMITTED));
}

/* Where nobody else is under way a call's own thread carries, to one component after the other; and again after a flood. */
static void goes_itself(void) {
    static bank b;
    static submitted calls[MANY];
    mz_pool_counts n;
    opened(&b, 100, MANY);
    b.s.is_alone = 1;
    for (int turn = 0; turn < 2; turn++) {
        until_idle(&b);
        for (int d = 0; d < DCS; d++) watch(&b.s.of[d], pthread_self());
        SEEN(commits(&b, "deposit_here", 1, 10, 0) && commits(&b, "deposit_there", 2, 0, 0) && commits(&b, "move", 1, 2, 1));
        for (int d = 0; d < DCS; d++) SEEN(b.s.of[d].batches && b.s.of[d].by_watched == b.s.of[d].batches);
        submits(&b, calls, MANY, "deposit_here", 10, 1);
        until(&b.t, &b.t.told, (uint64_t)(turn + 1) * MANY);
    }
    SEEN(mz_pool_count(b.pool, &n) == MZ_OK && n.told == 2 * MANY + 6 && n.open == 0 && balance_at(&b.s, 1, 2) == 2);
    closed(&b);
}

/* Calls that come while it carries wait for it, and take it with them then. */
static void meets_flood(void) {
    static bank b;
    static submitted calls[MANY];
    static caller one;
    component *c = &b.s.of[0];
    opened(&b, 100, 2 * MANY);
    held_call(&b, &one);
    submits(&b, calls, MANY, "deposit_here", 0, 1);
    until_counted(&b, MANY + 1, 0, 0);
    SEEN(c->by_watched == 1 && c->batches == 1);
    let_go(c);
    joined(&one, MZ_OK);
    until(&b.t, &b.t.committed, MANY);
    SEEN(c->by_watched == 1 && c->largest > MANY && balance_at(&b.s, 0, 90) == 5);
    closed(&b);
}

/* Its record is another's to wait for, who gets on at its end. */
static void is_waited_for(void) {
    static bank b;
    static submitted next;
    static caller one;
    opened(&b, 100, MANY);
    held_call(&b, &one);
    submit(&b, &next, 0, "deposit_here", 90, 1);
    until_counted(&b, 1, 1, 0);
    let_go(&b.s.of[0]);
    joined(&one, MZ_OK);
    until(&b.t, &b.t.committed, 1);
    SEEN(balance_at(&b.s, 0, 90) == 6);
    closed(&b);
}

/* Silence, another's reply, a loss: a thread of the pool rests, redoes and carries again. */
static void meets_trouble(void) {
    static bank b;
    component *c = &b.s.of[0];
    opened(&b, 100, MANY);
    SEEN(commits(&b, "deposit_here", 1, 10, 0));
    for (int way = 0; way < 2; way++) {
        until_idle(&b);
        watch(c, pthread_self());
        c->silent = way ? 0 : 5;
        if (way) component_restarts(c);
        SEEN(commits(&b, "deposit_here", 1, 10, 0) && c->by_watched == 1 && c->batches > 2);
    }
    SEEN(b.t.silences == 1 && b.t.answers == 1 && balance_at(&b.s, 0, 1) == 30);
    until_idle(&b);
    watch(c, pthread_self());
    SEEN(commits(&b, "deposit_here", 1, 10, 0) && c->by_watched == c->batches);
    closed(&b);
}

/* What ends a pool, met by a call's own thread: it and all others are told. */
static void meets_end(void) {
    static const mz_code codes[] = {MZ_DIVERGED, MZ_DEPOSED, MZ_DEPOSED, MZ_LOG_FAILED};
    static bank b;
    static submitted other;
    static caller one;
    for (int way = 0; way < 4; way++) {
        opened(&b, 100, MANY);
        b.t.expected = codes[way];
        held_call(&b, &one);
        hold(&b.s.of[1]);
        submit(&b, &other, 0, "deposit_there", 1, 5);
        until_within(&b.s.of[1]);
        (void)then_said(&b.s.of[0], way);
        let_go(&b.s.of[0]);
        joined(&one, codes[way]);
        until(&b.t, &b.t.by_code, 1);
        SEEN(b.s.of[0].by_watched == 1 && commits(&b, "deposit_here", 1, 1, 0) == 0);
        let_go(&b.s.of[1]);
        closed(&b);
    }
}

static void *closes(void *context) {
    mz_pool_close(((bank *)context)->pool, 0);
    return context;
}

/* A pool that is closed while it carries: that ends once it is back, and the log has the call. */
static void is_closed_upon(void) {
    static bank b;
    static caller one;
    const struct timespec moment = {0, 100000};
    uint64_t count = 0;
    pthread_t thread;
    opened(&b, 100, MANY);
    held_call(&b, &one);
    mz_pool *pool = b.pool;
    if (pthread_create(&thread, NULL, closes, &b)) exit(2);
    for (mz_code failed = MZ_OK; failed == MZ_OK; nanosleep(&moment, NULL)) {
        pthread_mutex_lock(&pool->queue_lock);
        failed = pool->failed;
        pthread_mutex_unlock(&pool->queue_lock);
    }
    let_go(&b.s.of[0]);
    joined(&one, MZ_NOT_OVER);
    pthread_join(thread, NULL);
    SEEN(mz_open_count(b.tc) == 1);
    put_away(&b);
    loaded(&b, path);
    pooled(&b, MANY);
    SEEN(mz_pool_come_back(b.pool, &count) == MZ_OK && count == 1 && balance_at(&b.s, 0, 90) == 5);
    closed(&b);
}

static void *checkpoints_once(void *context) {
    bank *b = (bank *)context;
    SEEN(mz_pool_checkpoint(b->pool, LONG, keep, &b->s) == MZ_OK);
    return context;
}

/* A checkpoint waits for it; who comes meanwhile waits for the checkpoint. */
static void is_drained(void) {
    static bank b;
    static submitted next;
    static caller one;
    const struct timespec moment = {0, 100000};
    pthread_t thread;
    opened(&b, 100, MANY);
    held_call(&b, &one);
    if (pthread_create(&thread, NULL, checkpoints_once, &b)) exit(2);
    for (int draining = 0; !draining; nanosleep(&moment, NULL)) {
        pthread_mutex_lock(&b.pool->queue_lock);
        draining = b.pool->draining;
        pthread_mutex_unlock(&b.pool->queue_lock);
    }
    submit(&b, &next, 0, "deposit_there", 1, 5);
    until_counted(&b, 1, 0, 1);
    let_go(&b.s.of[0]);
    joined(&one, MZ_OK);
    pthread_join(thread, NULL);
    until(&b.t, &b.t.committed, 1);
    SEEN(balance_at(&b.s, 0, 90) == 5 && balance_at(&b.s, 1, 1) == 5);
    closed(&b);
}

/* ---- threads */

typedef struct { bank *of; uint64_t number, made; } worker;

static void *works(void *context) {
    worker *w = (worker *)context;
    for (uint64_t turn = 0; turn < TURNS; turn++) {
        mz_receipt receipt;
        if (commits(w->of, "move", w->number, turn * 7 % 20, 1)) w->made++;
        if (turn % 3 == 0) SEEN(call(w->of, "touch", w->number, 0, 0, &receipt) == MZ_OK && receipt.outcome == MZ_ABORTED);
    }
    return context;
}

typedef struct { bank *of; int is_over; uint64_t made, barred; } checkpoints;

static void *makes_checkpoints(void *context) {
    checkpoints *k = (checkpoints *)context;
    while (!__atomic_load_n(&k->is_over, __ATOMIC_SEQ_CST)) {
        mz_code c = mz_pool_checkpoint(k->of->pool, LONG, keep, &k->of->s);
        SEEN(c == MZ_OK || c == MZ_ONE_DOWN || c == MZ_BEHIND || c == MZ_NOTHING_YET);
        k->made += c == MZ_OK;
        k->barred += c != MZ_OK;
    }
    return context;
}

/* By this many, with so many calls at once. */
static void by_threads(uint64_t count, size_t calls_at_once) {
    static bank b;
    pthread_t threads[THREADS + 1];
    worker workers[THREADS];
    checkpoints k = {&b, 0, 0, 0};
    uint64_t sum = 0;
    opened_over(&b, 1000, calls_at_once, 1);
    for (uint64_t t = 0; t < count; t++) SEEN(commits(&b, "deposit_here", t, OPENING, 0));
    for (uint64_t a = 0; a < 20; a++) SEEN(commits(&b, "deposit_there", a, 0, 0));
    for (int d = 0; d < DCS; d++) {
        pthread_mutex_lock(&b.s.of[d].lock);
        b.s.of[d].losing = 1;
        b.s.of[d].restarts_each = d ? 97 : 53;
        pthread_mutex_unlock(&b.s.of[d].lock);
    }
    for (uint64_t t = 0; t < count; t++) {
        workers[t].of = &b;
        workers[t].number = t;
        workers[t].made = 0;
        if (pthread_create(&threads[t], NULL, works, &workers[t])) exit(2);
    }
    if (pthread_create(&threads[count], NULL, makes_checkpoints, &k)) exit(2);
    for (uint64_t t = 0; t < count; t++) pthread_join(threads[t], NULL);
    __atomic_store_n(&k.is_over, 1, __ATOMIC_SEQ_CST);
    pthread_join(threads[count], NULL);
    for (uint64_t t = 0; t < count; t++) {
        SEEN(workers[t].made == TURNS && balance_at(&b.s, 0, t) == OPENING - TURNS);
        sum += balance_at(&b.s, 0, t);
    }
    for (uint64_t a = 0; a < 20; a++) sum += balance_at(&b.s, 1, a);
    SEEN(sum == count * OPENING && b.s.of[0].restarts && b.s.of[1].restarts && b.s.of[0].lost && b.s.of[1].late);
    closed(&b);
}

int main(void) {
    const char *temporary = getenv("TMPDIR");
    snprintf(folder, sizeof folder, "%s/mazzulpe-pool-XXXXXX", temporary ? temporary : "/tmp");
    if (!mkdtemp(folder)) return 2;
    snprintf(path, sizeof path, "%s/log", folder);
    one_by_one();
    go_together();
    over_batches();
    wait_in_order();
    nobody_starves();
    is_silent();
    admits_again();
    restarts();
    has_forgotten();
    has_no_room();
    ends();
    log_fails();
    comes_back();
    goes_itself();
    meets_flood();
    is_waited_for();
    meets_trouble();
    meets_end();
    is_closed_upon();
    is_drained();
    by_threads(THREADS, THREADS / 2);
    by_threads(2, THREADS);
    unlink(path);
    snprintf(path, sizeof path, "%s/log.session", folder);
    unlink(path);
    rmdir(folder);
    printf("pool: %s\n", failures ? "NOT as it has to be" : "none lost, none twice, the sum is right");
    return failures != 0;
}
