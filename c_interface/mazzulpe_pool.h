/* mazzulpe_pool.h: calls of many threads over one transaction component, its log and its data components, in rounds.
 *
 *     mz_pool_open(tc, log, carry, context, calls_at_once, NULL, &pool)
 *                                  once the log is open: takes up what is open, and redoes components that are down
 *     mz_pool_open_batched         the same over components that take batches
 *     mz_pool_come_back(pool, &n)  waits until all that was open has ended
 *     mz_pool_call(pool, "move", args, 3, values, 2, &receipt)
 *                                  from any thread: a call from its admission to its end, which the log has for good
 *     mz_pool_submit               the same without waiting: a function of yours is called once it has ended
 *     mz_pool_checkpoint           lets what is open end, has storage keep the mark, and begins the log again
 *     mz_pool_close(pool, milliseconds)
 *
 * A ROUND is of one data component: all calls whose turn it is are asked, the log is written and synced once, those that have
 * ended are told, and the wires of all others go there together. Each data component has a thread of its own, so that one that is
 * away holds up nobody but its own calls. How many go together follows the load; nobody polls, and an idle pool sleeps. Where
 * mz_pool_call finds a data component idle its own thread carries, as long as no other call wants to go there.
 *
 * THE POOL OWNS the transaction component and the log from mz_pool_open to mz_pool_close: make no call on them but between
 * mz_pool_lock and mz_pool_unlock, and there only looks.
 *
 * NOTHING IS GIVEN UP. Where nobody answers a wire is carried again after a rest, which grows to a bound. A component that
 * restarted is redone. A call that is busy waits for the end of the call that holds the lock. A call that waited long keeps others
 * from being admitted, until it is.
 *
 * THE POOL ENDS where a component says what can't be (MZ_DIVERGED), serves another session (MZ_DEPOSED), or the log fails
 * (MZ_LOG_FAILED, MZ_MEMORY, MZ_OTHER_PROCEDURES, MZ_FRAMES_SPENT): each call that hasn't ended, and each later one, is told that code.
 * What it did is unknown then, and comes back from the log.
 *
 * This header needs POSIX threads: with -std=c99 compile with -D_GNU_SOURCE too. */
#ifndef MAZZULPE_POOL_H
#define MAZZULPE_POOL_H

#include "mazzulpe_rounds.h"

#ifdef __cplusplus
extern "C" {
#endif

/* ---- inside: how it begins and ends */

/* After a call that was open when the pool was opened. */
static inline void mz_pool_back(void *context, mz_code code, const mz_receipt *receipt) {
    mz_pool *pool = (mz_pool *)context;
    (void)receipt;
    pthread_mutex_lock(&pool->queue_lock);
    pool->coming_back--;
    pool->came_back += code == MZ_OK;
    pthread_cond_broadcast(&pool->drained);
    pthread_mutex_unlock(&pool->queue_lock);
}

/* Takes up each call that is open. */
static inline mz_code mz_pool_take_up(mz_pool *pool) {
    mz_open open;
    mz_code c = MZ_OK;
    for (uint64_t place = 0; c == MZ_OK && mz_open_from(pool->tc, place, &open) == MZ_OK; place = open.place + 1) {
        mz_pool_item *item = (mz_pool_item *)calloc(1, sizeof *item);
        if (!item) return MZ_MEMORY;
        item->txn = open.txn;
        item->told = mz_pool_back;
        item->context = pool;
        item->is_own = 1;
        item->wire.record = open.record;
        mz_pool_opened(pool, item);
        pool->in_use++, pool->calls++, pool->were_open++, pool->coming_back++;
        if (open.waits) mz_pool_put(&pool->lanes[open.record.dc]->waiting, item);
        else c = mz_pool_advance(pool->lanes[0], item);
    }
    return c;
}

static inline int mz_pool_condition(pthread_cond_t *condition) {
    pthread_condattr_t steady;
    if (pthread_condattr_init(&steady)) return 0;
    int is_made = !pthread_condattr_setclock(&steady, CLOCK_MONOTONIC) && !pthread_cond_init(condition, &steady);
    pthread_condattr_destroy(&steady);
    return is_made;
}

/* How many data components there are. */
static inline size_t mz_pool_dcs(mz_tc *tc) {
    size_t dcs = 0;
    while (dcs < UINT16_MAX && mz_site(tc, (uint16_t)dcs, NULL, NULL) == MZ_OK) dcs++;
    return dcs;
}

/* Room for its calls and its data components. */
static inline mz_code mz_pool_furnish(mz_pool *pool) {
    size_t lanes = mz_pool_dcs(pool->tc);
    for (pool->bucket_count = 16; pool->bucket_count < pool->calls_at_once && pool->bucket_count < 1u << 16;) pool->bucket_count *= 2;
    pool->buckets = (mz_pool_item **)calloc(pool->bucket_count, sizeof *pool->buckets);
    pool->lanes = (mz_pool_lane **)calloc(lanes, sizeof *pool->lanes);
    if (!lanes) return MZ_NO_DC;
    if (!pool->buckets || !pool->lanes) return MZ_MEMORY;
    for (; pool->lane_count < lanes; pool->lane_count++) {
        mz_pool_lane *lane = (mz_pool_lane *)calloc(1, sizeof *lane);
        if (!lane || !mz_pool_condition(&lane->wanted)) {
            free(lane);
            return MZ_MEMORY;
        }
        lane->pool = pool;
        lane->dc = (uint16_t)pool->lane_count;
        lane->heard = MZ_NO_PLACE;
        pool->lanes[pool->lane_count] = lane;
    }
    return MZ_OK;
}

static inline mz_code mz_pool_start(mz_pool *pool) {
    for (; pool->started < pool->lane_count; pool->started++) {
        mz_pool_lane *lane = pool->lanes[pool->started];
        if (pthread_create(&lane->thread, NULL, mz_pool_runs, lane)) return MZ_MEMORY;
    }
    return MZ_OK;
}

/* After a checkpoint, whatever came of it; under the queue's lock. */
static inline void mz_pool_admits_again(mz_pool *pool) {
    pool->draining = 0;
    mz_pool_wake_one(pool);
    pthread_cond_broadcast(&pool->drained);
}

/* Nothing is admitted any more, and what is open has ended; not later than this. */
static inline mz_code mz_pool_drain(mz_pool *pool, uint64_t until) {
    pthread_mutex_lock(&pool->queue_lock);
    while (pool->draining && pool->failed == MZ_OK && mz_pool_now() < until) mz_pool_wait(pool, &pool->drained, until);
    int is_mine = !pool->draining;
    pool->draining = 1;
    while (is_mine && pool->in_use && pool->failed == MZ_OK && mz_pool_now() < until) mz_pool_wait(pool, &pool->drained, until);
    mz_code c = pool->failed != MZ_OK ? pool->failed : !is_mine || pool->in_use ? MZ_TXNS_OPEN : MZ_OK;
    if (is_mine && c != MZ_OK) mz_pool_admits_again(pool);
    pthread_mutex_unlock(&pool->queue_lock);
    return c;
}

/* What storage is told: the mark, of a log that has all that it counts. */
static inline mz_code mz_pool_mark(mz_pool *pool, uint64_t *mark) {
    uint64_t until = 0;
    mz_code c = MZ_OK;
    pthread_mutex_lock(&pool->lock);
    *mark = mz_low_water(pool->tc);
    if (mz_open_count(pool->tc)) c = MZ_TXNS_OPEN;
    for (size_t d = 0; d < pool->lane_count && c == MZ_OK; d++) {
        int down = 0;
        c = mz_site(pool->tc, (uint16_t)d, NULL, &down);
        if (c == MZ_OK && down) c = MZ_ONE_DOWN;
    }
    if (c == MZ_OK && pool->log) c = mz_log_write(pool->log, &until);
    pthread_mutex_unlock(&pool->lock);
    return c == MZ_OK ? mz_pool_stays(pool, until) : c;
}

/* After mz_pool_drain. */
static inline mz_code mz_pool_begin_again(mz_pool *pool, mz_pool_keep *keep, void *context) {
    uint64_t mark = 0, incarnation = 0;
    mz_code c = mz_pool_mark(pool, &mark);
    for (size_t d = 0; d < pool->lane_count && c == MZ_OK; d++) {
        pthread_mutex_lock(&pool->lock);
        c = mz_site(pool->tc, (uint16_t)d, &incarnation, NULL);
        pthread_mutex_unlock(&pool->lock);
        if (c == MZ_OK && !keep(context, (uint16_t)d, incarnation, mark)) c = MZ_BEHIND;
    }
    if (c != MZ_OK) return c;
    pthread_mutex_lock(&pool->lock);
    c = pool->log ? mz_log_checkpoint(pool->log, mark) : mz_checkpoint(pool->tc, mark);
    pthread_mutex_unlock(&pool->lock);
    return c;
}

/* Each thread has a room of its own. */
static inline void mz_pool_carry_batches(void *rooms, const mz_wire *wires, size_t count, mz_carried *carried, mz_reply *replies,
                                         mz_news *news) {
    mz_carry_batches((mz_batches *)rooms + wires[0].record.dc, wires, count, carried, replies, news);
}

/* What mz_pool_call waits for. */
typedef struct { pthread_mutex_t lock; pthread_cond_t over; int is_over; mz_code code; mz_receipt receipt; } mz_pool_caller;

static inline void mz_pool_told_caller(void *context, mz_code code, const mz_receipt *receipt) {
    mz_pool_caller *caller = (mz_pool_caller *)context;
    pthread_mutex_lock(&caller->lock);
    caller->code = code;
    caller->receipt = *receipt;
    caller->is_over = 1;
    pthread_cond_signal(&caller->over);
    pthread_mutex_unlock(&caller->lock);
}

/* A call, its room zeros. MZ_BAD_ARGUMENT. */
static inline mz_code mz_pool_fill(mz_pool_item *item, const char *procedure, const uint64_t *args, size_t count, mz_slot_value *values,
                                   size_t value_count, mz_pool_told *told, void *context) {
    if (!procedure || (count && !args) || count > MZ_ARGS || (value_count && !values)) return MZ_BAD_ARGUMENT;
    item->procedure = procedure;
    for (size_t i = 0; i < count; i++) item->args[i] = args[i];
    item->count = count;
    item->values = values;
    item->value_count = value_count;
    item->told = told;
    item->context = context;
    return MZ_OK;
}

/* Whether a call that comes now is admitted by its caller's thread: there is a place, none comes first, and a data component may be
 * idle; under the queue's lock. */
static inline int mz_pool_may_enter(const mz_pool *pool) {
    return !pool->draining && pool->in_use < pool->calls_at_once && pool->in_use <= pool->lane_count && !mz_pool_is_queued(pool);
}

/* Has it queued; but where its caller's thread may make its rounds, which *by_caller then says. */
static inline mz_code mz_pool_queue(mz_pool *pool, mz_pool_item *item, int *by_caller) {
    pthread_mutex_lock(&pool->queue_lock);
    mz_code c = pool->failed != MZ_OK ? pool->failed : pool->closing ? MZ_NOT_OVER : MZ_OK;
    pool->calls += c == MZ_OK;
    if (by_caller) *by_caller = item->by_caller = c == MZ_OK && mz_pool_may_enter(pool);
    if (item->by_caller) {
        pool->in_use++;
        pool->callers++;
    } else if (c == MZ_OK) {
        mz_pool_put(&pool->queues[MZ_POOL_NEW], item);
        mz_pool_wake_one(pool);
    }
    pthread_mutex_unlock(&pool->queue_lock);
    return c;
}

/* ---- a pool */

/* Ends it: takes no further calls, and waits for those that are there, for this many milliseconds at most. What is open then stays open in
 * the log, for the next one to take up; its callers, and those who weren't admitted, are told MZ_NOT_OVER. After it tc and log are the
 * caller's again, to be closed. No thread may use it any more. NULL is nothing. */
static inline void mz_pool_close(mz_pool *pool, unsigned milliseconds) {
    if (!pool) return;
    uint64_t until = mz_pool_now() + (uint64_t)milliseconds * 1000;
    pthread_mutex_lock(&pool->queue_lock);
    pool->closing = 1;
    while (pool->calls && pool->failed == MZ_OK && mz_pool_now() < until) mz_pool_wait(pool, &pool->drained, until);
    pthread_mutex_unlock(&pool->queue_lock);
    mz_pool_fail(pool, MZ_NOT_OVER);
    pthread_mutex_lock(&pool->queue_lock);
    while (pool->callers) mz_pool_wait(pool, &pool->drained, 0);
    pthread_mutex_unlock(&pool->queue_lock);
    for (size_t i = 0; i < pool->started; i++) pthread_join(pool->lanes[i]->thread, NULL);
    if (pool->log && pool->failed == MZ_NOT_OVER && mz_log_write(pool->log, &until) == MZ_OK) (void)mz_pool_stays(pool, until);
    for (size_t i = 0; i < pool->lane_count; i++) {
        pthread_cond_destroy(&pool->lanes[i]->wanted);
        free(pool->lanes[i]);
    }
    pthread_cond_destroy(&pool->drained);
    pthread_mutex_destroy(&pool->queue_lock);
    pthread_mutex_destroy(&pool->lock);
    free(pool->rooms);
    free(pool->lanes);
    free(pool->buckets);
    free(pool);
}

/* Opens a pool over a transaction component after its procedures are loaded, and after mz_log_open; log may be NULL: then nothing outlives this
 * process. At most calls_at_once calls are open together, but for those that were open before. `carry` carries wires of one data component
 * a call, and is called by several threads at once, for each data component by one at a time. options may be NULL. MZ_NO_DC; MZ_MEMORY: also
 * where there are no threads; what an open call was refused by. */
static inline mz_code mz_pool_open(mz_tc *tc, mz_log *log, mz_carry_many *carry, void *context, size_t calls_at_once,
                                   const mz_pool_options *options, mz_pool **pool) {
    if (!tc || !carry || !calls_at_once || !pool) return MZ_BAD_ARGUMENT;
    *pool = NULL;
    mz_pool *made = (mz_pool *)calloc(1, sizeof *made);
    if (!made || pthread_mutex_init(&made->lock, NULL) || pthread_mutex_init(&made->queue_lock, NULL) || !mz_pool_condition(&made->drained)) {
        free(made);
        return MZ_MEMORY;
    }
    made->tc = tc;
    made->log = log;
    made->carry = carry;
    made->context = context;
    made->calls_at_once = calls_at_once;
    if (options) made->options = *options;
    made->longest_rest = (made->options.longest_rest ? made->options.longest_rest : 250) * (uint64_t)1000;
    mz_code c = mz_pool_furnish(made);
    if (c == MZ_OK) c = mz_pool_take_up(made);
    if (c == MZ_OK) c = mz_pool_start(made);
    if (c == MZ_OK) *pool = made;
    else mz_pool_close(made, 0);
    return c;
}

/* The same over data components from 0 on that take batches (mazzulpe_batch.h), each used by one thread at a time; they have to be there
 * until the pool is closed. */
static inline mz_code mz_pool_open_batched(mz_tc *tc, mz_log *log, const mz_batched *components, uint16_t count, size_t calls_at_once,
                                           const mz_pool_options *options, mz_pool **pool) {
    size_t dcs = tc && components ? mz_pool_dcs(tc) : 0;
    if (!dcs) return MZ_BAD_ARGUMENT;
    mz_batches *rooms = (mz_batches *)calloc(dcs, sizeof *rooms);
    if (!rooms) return MZ_MEMORY;
    for (size_t d = 0; d < dcs; d++) {
        rooms[d].components = components;
        rooms[d].count = count;
    }
    mz_code c = mz_pool_open(tc, log, mz_pool_carry_batches, rooms, calls_at_once, options, pool);
    if (c == MZ_OK) (*pool)->rooms = rooms;
    else free(rooms);
    return c;
}

/* Waits until all that was open when it was opened has ended; *count, which may be NULL, says how many did. Calls may be made meanwhile.
 * MZ_NOT_OVER: one is stuck; or what ended the pool. */
static inline mz_code mz_pool_come_back(mz_pool *pool, uint64_t *count) {
    if (!pool) return MZ_BAD_ARGUMENT;
    pthread_mutex_lock(&pool->queue_lock);
    while (pool->coming_back) mz_pool_wait(pool, &pool->drained, 0);
    if (count) *count = pool->came_back;
    mz_code c = pool->failed != MZ_OK ? pool->failed : pool->came_back < pool->were_open ? MZ_NOT_OVER : MZ_OK;
    pthread_mutex_unlock(&pool->queue_lock);
    return c;
}

/* Has a call queued; `told` is called once it has ended, perhaps before this returns. values, which may be NULL: room for what its first
 * value_count access slots hold at its end; it, and `procedure`, have to be there until then. Else than MZ_OK, nothing is called:
 * MZ_BAD_ARGUMENT, MZ_MEMORY; MZ_NOT_OVER: the pool is being closed; what ended it. */
static inline mz_code mz_pool_submit(mz_pool *pool, const char *procedure, const uint64_t *args, size_t count, mz_slot_value *values,
                                     size_t value_count, mz_pool_told *told, void *context) {
    if (!pool || !told) return MZ_BAD_ARGUMENT;
    mz_pool_item *item = (mz_pool_item *)calloc(1, sizeof *item);
    if (!item) return MZ_MEMORY;
    mz_code c = mz_pool_fill(item, procedure, args, count, values, value_count, told, context);
    item->is_own = 1;
    if (c == MZ_OK) c = mz_pool_queue(pool, item, NULL);
    if (c != MZ_OK) free(item);
    return c;
}

/* Makes a call and waits for its end, however long its data components are away. MZ_OK: it ended as *receipt says, which the log has
 * for good, and values are as at mz_pool_submit. As mz_find and mz_admit; MZ_BUSY: a call that is stuck holds a lock; MZ_NOT_OVER: it is
 * stuck itself, or the pool was closed; what ended the pool. Never from a function that the pool calls, nor under a lock that `carry`
 * takes. */
static inline mz_code mz_pool_call(mz_pool *pool, const char *procedure, const uint64_t *args, size_t count, mz_slot_value *values,
                                   size_t value_count, mz_receipt *receipt) {
    mz_pool_item item;
    mz_pool_caller caller;
    if (!pool || !receipt) return MZ_BAD_ARGUMENT;
    memset(&item, 0, sizeof item);
    mz_code c = mz_pool_fill(&item, procedure, args, count, values, value_count, mz_pool_told_caller, &caller);
    if (c != MZ_OK) return c;
    if (pthread_mutex_init(&caller.lock, NULL) || pthread_cond_init(&caller.over, NULL)) return MZ_MEMORY;
    caller.is_over = 0;
    int by_caller;
    c = mz_pool_queue(pool, &item, &by_caller);
    if (by_caller) mz_pool_own_rounds(pool, &item);
    pthread_mutex_lock(&caller.lock);
    while (c == MZ_OK && !caller.is_over) pthread_cond_wait(&caller.over, &caller.lock);
    pthread_mutex_unlock(&caller.lock);
    pthread_cond_destroy(&caller.over);
    pthread_mutex_destroy(&caller.lock);
    if (c != MZ_OK) return c;
    *receipt = caller.receipt;
    return caller.code;
}

/* Has the log begin again, so that it doesn't grow for ever: admits nothing, waits until what is open has ended, has each data component
 * keep the low-water mark, and begins the log. Not by a function that the pool calls; one is made at a time. MZ_TXNS_OPEN: what was open
 * didn't end within this many milliseconds, or is stuck; MZ_ONE_DOWN; MZ_BEHIND: `keep` didn't keep it; as mz_log_checkpoint. The log is as it
 * was then, and calls go on. What ended the pool. */
static inline mz_code mz_pool_checkpoint(mz_pool *pool, unsigned milliseconds, mz_pool_keep *keep, void *context) {
    if (!pool || !keep) return MZ_BAD_ARGUMENT;
    mz_code c = mz_pool_drain(pool, mz_pool_now() + (uint64_t)milliseconds * 1000);
    if (c != MZ_OK) return c;
    c = mz_pool_begin_again(pool, keep, context);
    if (c == MZ_LOG_FAILED) mz_pool_fail(pool, c);
    pthread_mutex_lock(&pool->queue_lock);
    mz_pool_admits_again(pool);
    pthread_mutex_unlock(&pool->queue_lock);
    return c;
}

/* Between them looks of yours may be made on the transaction component and the log: short ones, since nothing goes on meanwhile. */
static inline void mz_pool_lock(mz_pool *pool) { pthread_mutex_lock(&pool->lock); }
static inline void mz_pool_unlock(mz_pool *pool) { pthread_mutex_unlock(&pool->lock); }

static inline mz_code mz_pool_count(mz_pool *pool, mz_pool_counts *counts) {
    if (!pool || !counts) return MZ_BAD_ARGUMENT;
    pthread_mutex_lock(&pool->lock);
    pthread_mutex_lock(&pool->queue_lock);
    *counts = pool->counts;
    counts->queued = 0;
    for (int q = 0; q < MZ_POOL_QUEUES; q++) counts->queued += pool->queues[q].count;
    pthread_mutex_unlock(&pool->queue_lock);
    pthread_mutex_unlock(&pool->lock);
    return MZ_OK;
}

/* The same as lines of text, with a line of each data component. */
static inline mz_code mz_pool_print(mz_pool *pool, FILE *to) {
    mz_pool_counts n;
    mz_code c = to ? mz_pool_count(pool, &n) : MZ_BAD_ARGUMENT;
    if (c != MZ_OK) return c;
    fprintf(to, "calls: %llu open, %llu queued, %llu wait for another, %llu ended\n", (unsigned long long)n.open,
            (unsigned long long)n.queued, (unsigned long long)n.waiting, (unsigned long long)n.told);
    fprintf(to, "rounds: %llu, of %llu wires, %llu of them redone\n", (unsigned long long)n.rounds, (unsigned long long)n.wires,
            (unsigned long long)n.redone);
    for (size_t d = 0; d < pool->lane_count; d++) {
        uint64_t incarnation = 0;
        int down = 0;
        pthread_mutex_lock(&pool->lock);
        c = mz_site(pool->tc, (uint16_t)d, &incarnation, &down);
        const mz_code trouble = pool->lanes[d]->trouble;
        const unsigned long long rest = pool->lanes[d]->rest / 1000;
        pthread_mutex_unlock(&pool->lock);
        fprintf(to, "component %u: %s, incarnation %llu, rests %llu ms, %s\n", (unsigned)d, down ? "down" : "up",
                (unsigned long long)incarnation, rest, mz_code_text(trouble));
    }
    return c;
}

#ifdef __cplusplus
}
#endif
#endif
