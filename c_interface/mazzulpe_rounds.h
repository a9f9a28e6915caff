/* mazzulpe_rounds.h: how the calls of a pool go, in rounds. Include mazzulpe_pool.h, which has the functions; here are the types that they
 * take, and all that is inside. */
#ifndef MAZZULPE_ROUNDS_H
#define MAZZULPE_ROUNDS_H

#include "mazzulpe_batch.h"
#include "mazzulpe_log.h"
#include <time.h>

#ifdef __cplusplus
extern "C" {
#endif

typedef struct mz_pool mz_pool;

/* What an access slot of a call held at its end, as mz_result says. */
typedef struct { int there; uint8_t value[MZ_VALUE]; } mz_slot_value;

/* How a submitted call ended: MZ_OK with *receipt, or why it didn't, as mz_pool_call answers. Called once, by a thread of the pool and
 * without its lock; it may submit, and mustn't wait for a call. */
typedef void mz_pool_told(void *context, mz_code code, const mz_receipt *receipt);

/* Has a data component keep this low-water mark with all that it did, for good. 0 where it doesn't, or isn't of this incarnation any
 * more. */
typedef int mz_pool_keep(void *context, uint16_t dc, uint64_t incarnation, uint64_t mark);

/* Zeros are what is meant where nothing is said. */
typedef struct {
    int unsynced;          /* 1: what is written ahead outlives this process, and not a loss of power (mz_log_flush) */
    unsigned longest_rest; /* of a component that is silent, in milliseconds; 0: 250 */
    /* What has become of a data component, once each time: MZ_SILENT, it is silent for so long that its rest is the longest; a code of
     * mz_told, as MZ_FORGOTTEN, with which no call gets on there; MZ_OK, it answers again. By its thread. It may be NULL. */
    void (*heard)(void *context, uint16_t dc, mz_code code);
    void *heard_context;
} mz_pool_options;

/* What an operator watches of it; what isn't `now` counts from mz_pool_open on. */
typedef struct {
    uint64_t open, queued, waiting;       /* now: calls that are admitted; that aren't yet; that wait for another's end */
    uint64_t told, rounds, wires, redone; /* calls; rounds with wires; wires carried; those of them of a redo */
    uint64_t silent;                      /* now: data components whose rest is the longest */
} mz_pool_counts;

/* ---- inside */

typedef struct mz_pool_item mz_pool_item;
typedef struct { mz_pool_item *first, *last; size_t count; } mz_pool_list;

/* A call, in one list at a time. */
struct mz_pool_item {
    mz_pool_item *next, *next_of_bucket;
    const char *procedure;
    uint64_t number, args[MZ_ARGS];
    size_t count, value_count;
    mz_slot_value *values;
    mz_pool_told *told;
    void *context;
    int is_own;             /* the pool frees it */
    int by_caller, is_over; /* its caller's thread makes its rounds; it has ended by them */
    uint64_t txn;           /* 0: it isn't admitted */
    mz_wire wire;
    int is_found, is_fresh; /* its procedure's number is known; its wire is of now, and mz_resend isn't needed */
    int undoing;
    unsigned tries, refusals; /* busy; undos that found no room */
    uint64_t due;             /* after such an undo */
    mz_record busy_record;
    mz_pool_list waiters; /* for its end */
    mz_code code;
    mz_receipt receipt;
};

/* A data component, with a thread. What it carries is its own. */
typedef struct {
    mz_pool *pool;
    uint16_t dc;
    pthread_t thread;
    pthread_cond_t wanted;
    int is_idle, is_wanted, is_taken;      /* under the queue's lock; taken: by a caller's thread, and this one waits */
    mz_pool_list waiting, set_aside;       /* for their wires to be carried; for an undo to be made again */
    mz_pool_list ended;                    /* by this thread, to be told */
    int is_due;                            /* it has got work by another's thread */
    uint64_t rest, until;                  /* of silence, in microseconds; when it is over */
    mz_code trouble, news_code, heard;     /* as `heard` was told; what it is now; what is to be told: MZ_NO_PLACE is nothing */
    int redoes;
    size_t count;
    mz_pool_item *items[MZ_BATCH];
    mz_wire wires[MZ_BATCH];
    mz_carried carried[MZ_BATCH];
    mz_reply replies[MZ_BATCH];
    mz_news news[MZ_BATCH];
} mz_pool_lane;

/* Calls that wait to be admitted, in the order in which they are tried. */
enum { MZ_POOL_URGENT, MZ_POOL_READY, MZ_POOL_NEW, MZ_POOL_QUEUES };
enum { MZ_POOL_PATIENCE = 32 }; /* a call that was busy so often is urgent */

/* `lock` comes before queue_lock. */
struct mz_pool {
    mz_tc *tc;
    mz_log *log;
    mz_carry_many *carry;
    void *context;
    mz_batches *rooms; /* of mz_pool_open_batched */
    mz_pool_options options;
    uint64_t longest_rest;
    pthread_mutex_t lock; /* of tc, and of all that isn't the queue's */
    mz_pool_lane **lanes;
    size_t lane_count, started;
    mz_pool_item **buckets; /* open calls, by number */
    size_t bucket_count;
    mz_record busy_record;  /* in this pass of admissions: which record was busy, and by whom */
    uint64_t busy_holder;
    size_t urgent; /* calls that were busy too often */
    mz_pool_counts counts;
    pthread_mutex_t queue_lock;
    pthread_cond_t drained; /* of those that wait for ends; and one checkpoint is made at a time */
    mz_pool_list queues[MZ_POOL_QUEUES];
    size_t calls_at_once, in_use, calls; /* admitted and not told; submitted and not told */
    size_t were_open, coming_back, came_back;
    size_t callers; /* whose threads make rounds */
    int draining, closing;
    mz_code failed; /* under both locks; either is enough to read it */
    mz_code broken; /* under `lock`: what a caller's thread met, for one of the pool's to end it by */
};

static inline uint64_t mz_pool_now(void) {
    struct timespec t;
    clock_gettime(CLOCK_MONOTONIC, &t);
    return (uint64_t)t.tv_sec * 1000000 + (uint64_t)t.tv_nsec / 1000;
}

static inline void mz_pool_put(mz_pool_list *list, mz_pool_item *item) {
    item->next = NULL;
    if (list->last) list->last->next = item;
    else list->first = item;
    list->last = item;
    list->count++;
}

static inline mz_pool_item *mz_pool_take(mz_pool_list *list) {
    mz_pool_item *item = list->first;
    if (!item) return NULL;
    list->first = item->next;
    if (!list->first) list->last = NULL;
    list->count--;
    return item;
}

static inline void mz_pool_put_all(mz_pool_list *list, mz_pool_list *from) {
    for (mz_pool_item *item = mz_pool_take(from); item; item = mz_pool_take(from)) mz_pool_put(list, item);
}

static inline mz_pool_item **mz_pool_bucket(mz_pool *pool, uint64_t txn) { return &pool->buckets[txn & (pool->bucket_count - 1)]; }

static inline mz_pool_item *mz_pool_open_call(mz_pool *pool, uint64_t txn) {
    mz_pool_item *item = *mz_pool_bucket(pool, txn);
    while (item && item->txn != txn) item = item->next_of_bucket;
    return item;
}

static inline void mz_pool_opened(mz_pool *pool, mz_pool_item *item) {
    mz_pool_item **bucket = mz_pool_bucket(pool, item->txn);
    item->next_of_bucket = *bucket;
    *bucket = item;
    pool->counts.open++;
}

/* ---- who wakes whom: under the queue's lock, with flags that outlast a wait that hasn't begun */

static inline void mz_pool_wake(mz_pool_lane *lane) {
    lane->is_wanted = 1;
    if (!lane->is_taken) pthread_cond_signal(&lane->wanted);
}

/* There is something to be admitted: if there are places, an idle thread looks, or each one before it sleeps. */
static inline void mz_pool_wake_one(mz_pool *pool) {
    if (pool->draining || pool->in_use >= pool->calls_at_once) return;
    for (size_t i = 0; i < pool->lane_count; i++)
        if (pool->lanes[i]->is_idle && pool->lanes[i]->is_wanted) return;
    for (size_t i = 0; i < pool->lane_count; i++)
        if (pool->lanes[i]->is_idle) {
            mz_pool_wake(pool->lanes[i]);
            return;
        }
    for (size_t i = 0; i < pool->lane_count; i++) pool->lanes[i]->is_wanted = 1;
}

/* Those that got wires from this thread, but for the one that it runs. */
static inline void mz_pool_wake_due(mz_pool *pool, const mz_pool_lane *mine) {
    pthread_mutex_lock(&pool->queue_lock);
    for (size_t i = 0; i < pool->lane_count; i++) {
        if (pool->lanes[i]->is_due && pool->lanes[i] != mine) mz_pool_wake(pool->lanes[i]);
        pool->lanes[i]->is_due = 0;
    }
    pthread_mutex_unlock(&pool->queue_lock);
}

static inline struct timespec mz_pool_timespec(uint64_t microseconds) {
    struct timespec t;
    memset(&t, 0, sizeof t);
    t.tv_sec = (time_t)(microseconds / 1000000);
    t.tv_nsec = (long)(microseconds % 1000000 * 1000);
    return t;
}

/* Waits, under the queue's lock, until this time; 0: for ever. */
static inline void mz_pool_wait(mz_pool *pool, pthread_cond_t *condition, uint64_t until) {
    const struct timespec t = mz_pool_timespec(until);
    if (until) pthread_cond_timedwait(condition, &pool->queue_lock, &t);
    else pthread_cond_wait(condition, &pool->queue_lock);
}

static inline void mz_pool_sleep(mz_pool_lane *lane, uint64_t until) {
    mz_pool *pool = lane->pool;
    pthread_mutex_lock(&pool->queue_lock);
    lane->is_idle = !lane->is_taken;
    while (lane->is_taken || (!lane->is_wanted && (!until || mz_pool_now() < until)))
        mz_pool_wait(pool, &lane->wanted, lane->is_taken ? 0 : until);
    lane->is_idle = lane->is_wanted = 0;
    pthread_mutex_unlock(&pool->queue_lock);
}

/* ---- how a call ends */

/* Tells each, which may be gone then. */
static inline void mz_pool_tell(mz_pool_list *list, mz_code failed) {
    for (mz_pool_item *item = mz_pool_take(list); item; item = mz_pool_take(list)) {
        int is_own = item->is_own;
        item->told(item->context, failed != MZ_OK ? failed : item->code, &item->receipt);
        if (is_own) free(item);
    }
}

static inline int mz_pool_is_queued(const mz_pool *pool) {
    return pool->queues[MZ_POOL_URGENT].first || pool->queues[MZ_POOL_READY].first || pool->queues[MZ_POOL_NEW].first;
}

/* Places of calls that were told, under the queue's lock. */
static inline void mz_pool_give_places(mz_pool *pool, size_t count) {
    pool->in_use -= count;
    pool->calls -= count;
    if ((pool->draining && !pool->in_use) || (pool->closing && !pool->calls)) pthread_cond_broadcast(&pool->drained);
}

/* Tells those that this thread ended, whose places are free then. If it has nothing to carry it looks itself who wants them; a call that
 * was alone leaves the lane free for its caller's next one. */
static inline void mz_pool_tell_ended(mz_pool_lane *lane, int carries, mz_code failed) {
    mz_pool *pool = lane->pool;
    size_t count = lane->ended.count;
    pthread_mutex_lock(&pool->queue_lock);
    lane->is_idle = !carries && count == 1 && failed == MZ_OK;
    pthread_mutex_unlock(&pool->queue_lock);
    mz_pool_tell(&lane->ended, failed);
    pthread_mutex_lock(&pool->queue_lock);
    mz_pool_give_places(pool, count);
    if (mz_pool_is_queued(pool) && !carries && !lane->is_taken) lane->is_wanted = 1;
    else if (mz_pool_is_queued(pool)) mz_pool_wake_one(pool);
    pthread_mutex_unlock(&pool->queue_lock);
}

/* Whoever waited for it may be admitted. */
static inline void mz_pool_release(mz_pool *pool, mz_pool_item *holder) {
    if (!holder->waiters.count) return;
    pthread_mutex_lock(&pool->queue_lock);
    pool->counts.waiting -= holder->waiters.count;
    for (mz_pool_item *item = mz_pool_take(&holder->waiters); item; item = mz_pool_take(&holder->waiters))
        mz_pool_put(&pool->queues[item->tries < MZ_POOL_PATIENCE ? MZ_POOL_READY : MZ_POOL_URGENT], item);
    pthread_mutex_unlock(&pool->queue_lock);
}

static inline void mz_pool_finish(mz_pool_lane *lane, mz_pool_item *item, mz_code code) {
    mz_pool *pool = lane->pool;
    if (item->txn) {
        mz_pool_item **at = mz_pool_bucket(pool, item->txn);
        while (*at != item) at = &(*at)->next_of_bucket;
        *at = item->next_of_bucket;
        mz_pool_release(pool, item);
        pool->counts.open--;
    }
    item->code = code;
    pool->counts.told++;
    if (item->by_caller) item->is_over = 1;
    else mz_pool_put(&lane->ended, item);
}

static inline mz_code mz_pool_over(mz_pool_lane *lane, mz_pool_item *item) {
    mz_tc *tc = lane->pool->tc;
    for (size_t i = 0; i < item->value_count; i++) {
        mz_slot_value *to = &item->values[i];
        if (mz_result(tc, item->txn, i, to->value, &to->there) != MZ_OK) memset(to, 0, sizeof *to);
    }
    mz_code c = mz_end(tc, item->txn, &item->receipt);
    if (c == MZ_OK) mz_pool_finish(lane, item, MZ_OK);
    return c;
}

/* Ends the pool by this code: all calls that haven't ended are told, or by their callers' threads; and its threads end. The first code
 * counts. */
static inline void mz_pool_fail(mz_pool *pool, mz_code code) {
    mz_pool_list all = {NULL, NULL, 0};
    pthread_mutex_lock(&pool->lock);
    pthread_mutex_lock(&pool->queue_lock);
    int is_first = pool->failed == MZ_OK;
    if (is_first) pool->failed = code;
    for (int q = 0; is_first && q < MZ_POOL_QUEUES; q++) mz_pool_put_all(&all, &pool->queues[q]);
    for (size_t b = 0; is_first && b < pool->bucket_count; b++)
        for (mz_pool_item *item = pool->buckets[b]; item; item = item->next_of_bucket) {
            mz_pool_put_all(&all, &item->waiters);
            if (!item->by_caller) mz_pool_put(&all, item);
        }
    for (size_t i = 0; i < pool->lane_count; i++) mz_pool_wake(pool->lanes[i]);
    pthread_cond_broadcast(&pool->drained);
    pthread_mutex_unlock(&pool->queue_lock);
    pthread_mutex_unlock(&pool->lock);
    mz_pool_tell(&all, code);
}

/* ---- a call's way, under the lock */

/* Asks on, until it has a wire, waits or is over. */
static inline mz_code mz_pool_advance(mz_pool_lane *lane, mz_pool_item *item) {
    mz_pool *pool = lane->pool;
    for (;;) {
        mz_asked asked;
        mz_code c = item->undoing ? mz_undo(pool->tc, item->txn, &asked) : mz_ask(pool->tc, item->txn, &asked);
        if (c != MZ_OK) return c;
        switch (asked.next) {
        case MZ_REQUEST:
        case MZ_DOWN:
        case MZ_WAITS:
            if (asked.next != MZ_WAITS) item->wire = asked.wire;
            item->is_fresh = asked.next == MZ_REQUEST;
            mz_pool_put(&pool->lanes[item->wire.record.dc]->waiting, item);
            pool->lanes[item->wire.record.dc]->is_due = 1;
            return MZ_OK;
        case MZ_UNDOING: item->undoing = 1; break;
        case MZ_RUNNING: item->undoing = 0; break;
        case MZ_OVER: return mz_pool_over(lane, item);
        case MZ_STUCK: mz_pool_finish(lane, item, MZ_NOT_OVER); return MZ_OK;
        }
    }
}

/* After its answer. An undo that found no room has few numbers left, and rests longer each time. */
static inline mz_code mz_pool_goes_on(mz_pool_lane *lane, mz_pool_item *item, mz_said said) {
    if (!item->wire.undoes || said != MZ_NO_ROOM) return mz_pool_advance(lane, item);
    item->undoing = 0;
    item->due = mz_pool_now() + (lane->pool->longest_rest << (item->refusals < 8 ? 2 + item->refusals++ : 10));
    mz_pool_put(&lane->set_aside, item);
    return MZ_OK;
}

/* Its wire, to be carried now; *is_there is 0 where it asked on instead. */
static inline mz_code mz_pool_wire(mz_pool_lane *lane, mz_pool_item *item, uint64_t incarnation, int *is_there) {
    mz_tc *tc = lane->pool->tc;
    mz_asked asked;
    *is_there = 1;
    if (item->is_fresh && item->wire.incarnation == incarnation) return MZ_OK;
    mz_code c = mz_resend(tc, item->txn, &item->wire);
    if (c != MZ_NOTHING_OPEN) return c;
    c = mz_retake(tc, item->txn, &asked);
    if (c == MZ_OK) item->wire = asked.wire;
    if (c != MZ_NOTHING_OPEN) return c;
    *is_there = 0;
    return mz_pool_advance(lane, item);
}

/* ---- admissions */

/* The next one to be tried, with a place; NULL: there is none. */
static inline mz_pool_item *mz_pool_next(mz_pool *pool) {
    mz_pool_item *item = NULL;
    pthread_mutex_lock(&pool->queue_lock);
    int last = pool->urgent && !pool->counts.silent ? MZ_POOL_URGENT : MZ_POOL_NEW;
    for (int q = 0; !item && q <= last && !pool->draining && pool->in_use < pool->calls_at_once; q++) item = mz_pool_take(&pool->queues[q]);
    pool->in_use += item != NULL;
    pthread_mutex_unlock(&pool->queue_lock);
    return item;
}

/* It waits for the end of the call that holds a lock. */
static inline void mz_pool_waits_for(mz_pool *pool, mz_pool_item *item, mz_pool_item *holder) {
    mz_pool_put(&holder->waiters, item);
    pthread_mutex_lock(&pool->queue_lock);
    pool->in_use--;
    pool->counts.waiting++;
    pthread_mutex_unlock(&pool->queue_lock);
}

static inline int mz_pool_same(const mz_record *a, const mz_record *b) { return a->dc == b->dc && a->table == b->table && a->key == b->key; }

/* A call that met this record before waits where the last one does, without a try. */
static inline mz_code mz_pool_try(mz_pool *pool, mz_pool_item *item) {
    if (item->tries && pool->busy_holder && mz_pool_same(&item->busy_record, &pool->busy_record)) return MZ_BUSY;
    mz_code c = item->is_found ? MZ_OK : mz_find(pool->tc, item->procedure, &item->number);
    item->is_found = c == MZ_OK;
    if (c == MZ_OK) c = mz_admit(pool->tc, item->number, item->args, item->count, &item->txn, &item->busy_record, &pool->busy_holder);
    if (c == MZ_BUSY) pool->busy_record = item->busy_record;
    if (c == MZ_BUSY && ++item->tries == MZ_POOL_PATIENCE) pool->urgent++;
    return c;
}

/* Admits it, or has it wait or end. */
static inline mz_code mz_pool_admit(mz_pool_lane *lane, mz_pool_item *item) {
    mz_pool *pool = lane->pool;
    mz_code c = mz_pool_try(pool, item);
    mz_pool_item *holder = c == MZ_BUSY ? mz_pool_open_call(pool, pool->busy_holder) : NULL;
    if (holder) {
        mz_pool_waits_for(pool, item, holder);
        return MZ_OK;
    }
    if (item->tries >= MZ_POOL_PATIENCE) pool->urgent--;
    if (c != MZ_OK) {
        mz_pool_finish(lane, item, c); /* MZ_BUSY: one that is stuck holds the lock */
        return MZ_OK;
    }
    mz_pool_opened(pool, item);
    return mz_pool_advance(lane, item);
}

/* Tries all that there are places for. */
static inline mz_code mz_pool_admit_all(mz_pool_lane *lane) {
    mz_code c = MZ_OK;
    mz_pool_item *item;
    lane->pool->busy_holder = 0;
    while (c == MZ_OK && (item = mz_pool_next(lane->pool))) c = mz_pool_admit(lane, item);
    return c;
}

/* ---- a round of a data component */

/* What came of one wire. Its call goes on, or it is carried again. Other codes than MZ_OK end the pool. */
static inline mz_code mz_pool_reply(mz_pool_lane *lane, size_t i, size_t *answered) {
    mz_pool *pool = lane->pool;
    mz_pool_item *item = lane->items[i];
    const mz_reply *reply = &lane->replies[i];
    mz_code c = MZ_SILENT;
    if (lane->carried[i] != MZ_REPLIED) c = mz_not_carried(pool->tc, &lane->wires[i], lane->carried[i]);
    else if (!lane->redoes) c = mz_answer(pool->tc, item->txn, reply);
    else if (*answered == i) c = mz_redone(pool->tc, lane->dc, reply);
    if (mz_is_final(c)) return c;
    if (lane->carried[i] == MZ_REPLIED && c == MZ_OK) {
        ++*answered;
        return item ? mz_pool_goes_on(lane, item, reply->said) : MZ_OK;
    }
    if (lane->carried[i] == MZ_RESTARTED) {
        c = mz_told(pool->tc, lane->dc, &lane->news[i]);
        if (c != MZ_OK && c != MZ_OLD_NEWS) lane->news_code = c;
        if (c == MZ_OK) lane->news_code = MZ_OK;
    }
    if (item) item->is_fresh = 0;
    if (item) mz_pool_put(&lane->waiting, item);
    return MZ_OK;
}

/* The rest after a round that nobody answered, and what is to be told of it. */
static inline void mz_pool_rests(mz_pool_lane *lane, size_t answered) {
    mz_pool *pool = lane->pool;
    int was_silent = lane->rest == pool->longest_rest;
    if (answered) {
        lane->rest = lane->until = 0;
        lane->news_code = MZ_OK;
    } else {
        lane->rest = lane->rest ? 2 * lane->rest : 1000;
        if (lane->rest > pool->longest_rest) lane->rest = pool->longest_rest;
        lane->until = mz_pool_now() + lane->rest;
    }
    int is_silent = lane->rest == pool->longest_rest;
    pool->counts.silent += (uint64_t)is_silent - (uint64_t)was_silent;
    mz_code now = lane->news_code != MZ_OK ? lane->news_code : is_silent ? MZ_SILENT : answered ? MZ_OK : lane->trouble;
    if (now != lane->trouble) lane->trouble = lane->heard = now;
}

/* All that came of what it carried. */
static inline mz_code mz_pool_take_in(mz_pool_lane *lane) {
    size_t answered = 0;
    mz_code c = MZ_OK;
    for (size_t i = 0; i < lane->count && c == MZ_OK; i++) c = mz_pool_reply(lane, i, &answered);
    if (lane->redoes) lane->pool->counts.redone += answered;
    if (lane->count) mz_pool_rests(lane, answered);
    lane->count = 0;
    return c;
}

/* Undos whose rest is over. */
static inline mz_code mz_pool_undo_again(mz_pool_lane *lane) {
    uint64_t now = lane->set_aside.count ? mz_pool_now() : 0;
    mz_code c = MZ_OK;
    for (size_t left = lane->set_aside.count; left && c == MZ_OK; left--) {
        mz_pool_item *item = mz_pool_take(&lane->set_aside);
        if (item->due <= now) c = mz_pool_advance(lane, item);
        else mz_pool_put(&lane->set_aside, item);
    }
    return c;
}

/* What is carried next: a part of the redo, or the wires of all that wait; nothing during a rest. */
static inline mz_code mz_pool_choose(mz_pool_lane *lane) {
    mz_pool *pool = lane->pool;
    uint64_t incarnation = 0;
    int down = 0, is_there = 0;
    lane->redoes = 0;
    if (lane->until && mz_pool_now() < lane->until) return MZ_OK;
    lane->until = 0;
    mz_code c = mz_site(pool->tc, lane->dc, NULL, &down);
    if (c == MZ_OK && down) c = mz_redo_some(pool->tc, lane->dc, lane->wires, MZ_BATCH, &lane->count);
    lane->redoes = lane->count > 0;
    for (size_t i = 0; i < lane->count; i++) lane->items[i] = NULL;
    if (c == MZ_OK) c = mz_site(pool->tc, lane->dc, &incarnation, NULL);
    while (c == MZ_OK && !lane->redoes && lane->count < MZ_BATCH && lane->waiting.count) {
        mz_pool_item *item = mz_pool_take(&lane->waiting);
        c = mz_pool_wire(lane, item, incarnation, &is_there);
        if (c != MZ_OK || !is_there) continue;
        lane->items[lane->count] = item;
        lane->wires[lane->count++] = item->wire;
    }
    pool->counts.rounds += lane->count > 0;
    pool->counts.wires += lane->count;
    return c;
}

/* When it has to look again by itself: once its rest is over, or an undo's; 0: never. */
static inline uint64_t mz_pool_until(const mz_pool_lane *lane) {
    uint64_t until = lane->until;
    for (const mz_pool_item *item = lane->set_aside.first; item; item = item->next)
        if (!until || item->due < until) until = item->due;
    return until;
}

static inline mz_code mz_pool_ends(const mz_pool *pool) { return pool->failed != MZ_OK ? pool->failed : pool->broken; }

/* All that is done under the lock. *until is how far the log has to stay before anything is carried or told. */
static inline mz_code mz_pool_locked(mz_pool_lane *lane, uint64_t *until, uint64_t *wakes) {
    mz_pool *pool = lane->pool;
    pthread_mutex_lock(&pool->lock);
    mz_code c = mz_pool_ends(pool);
    if (c == MZ_OK) c = mz_pool_take_in(lane);
    if (c == MZ_OK) c = mz_pool_undo_again(lane);
    if (c == MZ_OK) c = mz_pool_admit_all(lane);
    if (c == MZ_OK) c = mz_pool_choose(lane);
    if (c == MZ_OK && pool->log && (lane->count || lane->ended.count)) c = mz_log_write(pool->log, until);
    *wakes = mz_pool_until(lane);
    mz_pool_wake_due(pool, lane);
    pthread_mutex_unlock(&pool->lock);
    return c;
}

static inline mz_code mz_pool_stays(mz_pool *pool, uint64_t until) {
    if (!pool->log) return MZ_OK;
    return pool->options.unsynced ? mz_log_flush(pool->log, until) : mz_log_sync(pool->log, until);
}

static inline mz_code mz_pool_round(mz_pool_lane *lane) {
    mz_pool *pool = lane->pool;
    uint64_t until = 0, wakes = 0;
    mz_code c = mz_pool_locked(lane, &until, &wakes);
    if (lane->heard != MZ_NO_PLACE && pool->options.heard) pool->options.heard(pool->options.heard_context, lane->dc, lane->heard);
    lane->heard = MZ_NO_PLACE;
    const int carries = lane->count > 0;
    if (c == MZ_OK && (carries || lane->ended.count)) c = mz_pool_stays(pool, until);
    if (lane->ended.count) mz_pool_tell_ended(lane, carries, c);
    if (c != MZ_OK) return c;
    if (carries) pool->carry(pool->context, lane->wires, lane->count, lane->carried, lane->replies, lane->news);
    else mz_pool_sleep(lane, wakes);
    return MZ_OK;
}

static inline void *mz_pool_runs(void *context) {
    mz_pool_lane *lane = (mz_pool_lane *)context;
    mz_code c = MZ_OK;
    while (c == MZ_OK) c = mz_pool_round(lane);
    mz_pool_fail(lane->pool, c);
    return NULL;
}

/* ---- rounds by a caller's thread, of its call alone: nothing is handed to another thread where nobody else uses the data component. What
 * isn't an answer to it goes to the pool's threads, with the call. */

/* Admits it, where no other call comes first. */
static inline mz_code mz_pool_admit_own(mz_pool *pool, mz_pool_item *item) {
    pool->busy_holder = 0;
    if (!pool->urgent || pool->counts.silent) return mz_pool_admit(pool->lanes[0], item);
    pthread_mutex_lock(&pool->queue_lock);
    mz_pool_put(&pool->queues[MZ_POOL_NEW], item);
    pool->in_use--;
    mz_pool_wake_one(pool);
    pthread_mutex_unlock(&pool->queue_lock);
    return MZ_OK;
}

/* Whether the lane in which it waits has nothing else to do; under both locks. */
static inline int mz_pool_is_free(const mz_pool_lane *lane, const mz_pool_item *item) {
    return item->is_fresh && lane->is_idle && !lane->is_wanted && !lane->rest && !lane->set_aside.count && lane->waiting.count == 1;
}

/* Back to its thread, under the queue's lock. */
static inline void mz_pool_give_back(mz_pool_lane *lane) {
    lane->is_taken = 0;
    lane->is_idle = 1;
}

/* Gives the lane back that was held, and takes the one in which it waits, if that is free. NULL: it is over, or the pool's threads
 * go on with it. */
static inline mz_pool_lane *mz_pool_take_lane(mz_pool *pool, mz_pool_lane *held, mz_pool_item *item) {
    mz_pool_lane *lane = item->txn && !item->is_over ? pool->lanes[item->wire.record.dc] : NULL;
    pthread_mutex_lock(&pool->queue_lock);
    if (held) mz_pool_give_back(held);
    if (lane && !mz_pool_is_free(lane, item)) lane = NULL;
    if (held && held != lane && (held->is_wanted || held->waiting.count || held->set_aside.count)) mz_pool_wake(held);
    if (lane) lane->is_idle = 0;
    if (lane) lane->is_taken = 1;
    if (item->is_over && mz_pool_is_queued(pool)) mz_pool_wake_one(pool); /* they waited for its end */
    item->by_caller = lane || item->is_over;
    pool->callers -= !item->by_caller;
    pthread_mutex_unlock(&pool->queue_lock);
    mz_pool_wake_due(pool, lane);
    return lane;
}

/* As mz_pool_locked, in the lane that it holds, or none yet. */
static inline mz_code mz_pool_own_locked(mz_pool *pool, mz_pool_item *item, mz_pool_lane **lane, uint64_t *until) {
    pthread_mutex_lock(&pool->lock);
    mz_code c = mz_pool_ends(pool);
    if (c == MZ_OK) c = *lane ? mz_pool_take_in(*lane) : mz_pool_admit_own(pool, item);
    if (c == MZ_OK) *lane = mz_pool_take_lane(pool, *lane, item);
    if (c == MZ_OK && *lane) c = mz_pool_choose(*lane);
    if (c == MZ_OK && pool->log && item->by_caller) c = mz_log_write(pool->log, until);
    pthread_mutex_unlock(&pool->lock);
    return c;
}

/* The pool's threads end it by this code, and tell its calls, this one too; but where they did so before, or it is over. */
static inline void mz_pool_break(mz_pool *pool, mz_pool_lane *lane, mz_pool_item *item, mz_code code) {
    pthread_mutex_lock(&pool->lock);
    if (pool->broken == MZ_OK) pool->broken = code;
    item->code = mz_pool_ends(pool);
    item->by_caller = item->is_over || !item->txn || pool->failed != MZ_OK;
    pthread_mutex_lock(&pool->queue_lock);
    pthread_mutex_unlock(&pool->lock); /* once nobody makes rounds the pool may be gone */
    if (lane) lane->count = 0;
    if (lane) mz_pool_give_back(lane);
    for (size_t i = 0; i < pool->lane_count; i++) mz_pool_wake(pool->lanes[i]);
    pool->callers--;
    if (pool->closing) pthread_cond_broadcast(&pool->drained);
    pthread_mutex_unlock(&pool->queue_lock);
}

/* Its place, of whoever has ended by its own thread. */
static inline void mz_pool_leave(mz_pool *pool) {
    pthread_mutex_lock(&pool->queue_lock);
    mz_pool_give_places(pool, 1);
    if (mz_pool_is_queued(pool)) mz_pool_wake_one(pool);
    pool->callers--;
    if (pool->closing) pthread_cond_broadcast(&pool->drained);
    pthread_mutex_unlock(&pool->queue_lock);
}

/* Goes on with it as far as it may, and tells it where it ended. */
static inline void mz_pool_own_rounds(mz_pool *pool, mz_pool_item *item) {
    mz_pool_lane *lane = NULL;
    uint64_t until = 0;
    mz_code c = mz_pool_own_locked(pool, item, &lane, &until);
    while (c == MZ_OK && lane) {
        c = mz_pool_stays(pool, until);
        if (c != MZ_OK) break;
        pool->carry(pool->context, lane->wires, lane->count, lane->carried, lane->replies, lane->news);
        c = mz_pool_own_locked(pool, item, &lane, &until);
    }
    if (c == MZ_OK && item->by_caller) c = mz_pool_stays(pool, until);
    if (c != MZ_OK) mz_pool_break(pool, lane, item, c);
    else if (item->by_caller) mz_pool_leave(pool);
    if (item->by_caller) item->told(item->context, item->code, &item->receipt);
}

#ifdef __cplusplus
}
#endif
#endif
