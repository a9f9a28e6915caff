/* Data components of the library's as a pool's storage: each is carried to by one thread at a time. What is set beforehand goes wrong:
 * it is held, silent, full, restarts, or loses replies and gives late ones. */
#ifndef POOL_STORAGE_H
#define POOL_STORAGE_H

#include "mazzulpe_pool.h"
#include "seen.h"

enum { DCS = 2, KEPT_WIRES = 64 };

/* One data component. */
typedef struct {
    pthread_mutex_t lock;
    pthread_cond_t moved;     /* held, within or batches has changed */
    mz_dc *dc;
    mz_news news;
    int held, passes, within; /* whoever carries waits; but this many batches; and does so now */
    int silent, full, losing; /* this many batches aren't answered; this many undos find no room; replies are lost, or others' */
    uint64_t restarts_each;   /* it restarts before each batch of that number; 0: it doesn't */
    mz_said said;             /* in the place of what it says, where it isn't 0 */
    mz_carried instead;       /* the same of what became of each wire */
    uint64_t batches, largest, lost, late, restarts;
    pthread_t watched; /* batches that this thread carried */
    uint64_t by_watched;
    unsigned drawn;
    mz_wire kept[KEPT_WIRES]; /* wires that it was sent, which come again */
    uint64_t sent;
} component;

typedef struct { component of[DCS]; mz_log *log; int is_alone, is_unsynced; } storage;

static inline void storage_new(storage *s, uint64_t rows) {
    memset(s, 0, sizeof *s);
    for (unsigned d = 0; d < DCS; d++) {
        component *c = &s->of[d];
        mz_code code;
        if (pthread_mutex_init(&c->lock, NULL) || pthread_cond_init(&c->moved, NULL)) exit(2);
        c->dc = mz_dc_new(rows, 1 << 16, &code);
        c->drawn = d + 1;
        if (!c->dc) exit(2);
    }
}

static inline void storage_free(storage *s) {
    for (int d = 0; d < DCS; d++) mz_dc_free(s->of[d].dc);
}

/* One of this many. */
static inline int is_drawn(component *c, unsigned of) {
    c->drawn = c->drawn * 1103515245u + 12345u;
    return (c->drawn >> 16) % of == 0;
}

/* A wire of before that comes once more: it is answered as it was, and nobody hears it. */
static inline void comes_late(component *c) {
    mz_reply reply;
    const mz_wire *wire = &c->kept[c->drawn % KEPT_WIRES];
    if (c->sent < KEPT_WIRES || wire->incarnation != c->news.incarnation) return;
    (void)mz_dc_perform(c->dc, wire, &reply);
    c->late++;
}

/* Loses what came after its checkpoint. */
static inline void component_restarts(component *c) {
    if (mz_dc_restart(c->dc, &c->news) != MZ_OK) exit(2);
    c->restarts++;
}

static inline mz_carried performed(component *c, const mz_wire *wire, mz_reply *reply, mz_news *news) {
    *news = c->news;
    if (c->instead != MZ_LOST) return c->instead;
    if (wire->incarnation < c->news.incarnation) return MZ_RESTARTED;
    c->kept[c->sent++ % KEPT_WIRES] = *wire;
    if (c->full && wire->undoes) {
        c->full--;
        memset(reply, 0, sizeof *reply);
        reply->number = wire->number;
        reply->incarnation = wire->incarnation;
        reply->said = MZ_NO_ROOM;
        return MZ_REPLIED;
    }
    if (mz_dc_perform(c->dc, wire, reply) != MZ_OK) return MZ_LOST;
    if (c->said) reply->said = c->said;
    if (!c->losing) return MZ_REPLIED;
    if (is_drawn(c, 16)) comes_late(c);
    if (is_drawn(c, 16)) reply->number--; /* another's */
    if (!is_drawn(c, 16)) return MZ_REPLIED;
    c->lost++;
    return MZ_LOST;
}

/* What has happened is in the log before a wire is carried, where nobody else is on the way to it. */
static inline void looks_at_log(const storage *s) {
    mz_log_counts n;
    if (s->log && s->is_alone) SEEN(mz_log_count(s->log, &n) == MZ_OK && n.synced == n.written);
}

static inline void carry(void *context, const mz_wire *wires, size_t count, mz_carried *carried, mz_reply *replies, mz_news *news) {
    storage *s = (storage *)context;
    component *c = &s->of[wires[0].record.dc];
    pthread_mutex_lock(&c->lock);
    SEEN(!c->within && count && count <= MZ_BATCH);
    looks_at_log(s);
    c->within = 1;
    c->batches++;
    c->by_watched += pthread_equal(c->watched, pthread_self()) != 0;
    if (c->restarts_each && c->batches % c->restarts_each == 0) component_restarts(c);
    if (count > c->largest) c->largest = count;
    pthread_cond_broadcast(&c->moved);
    while (c->held && !c->passes) pthread_cond_wait(&c->moved, &c->lock);
    c->passes -= c->passes > 0;
    int silent = c->silent > 0;
    c->silent -= silent;
    for (size_t i = 0; i < count; i++) {
        SEEN(wires[i].record.dc == wires[0].record.dc);
        carried[i] = silent ? MZ_LOST : performed(c, &wires[i], &replies[i], &news[i]);
    }
    c->within = 0;
    pthread_mutex_unlock(&c->lock);
}

/* It keeps the mark, and forgets what it needn't know. */
static inline int keep(void *context, uint16_t dc, uint64_t incarnation, uint64_t mark) {
    component *c = &((storage *)context)->of[dc];
    const mz_log *log = ((storage *)context)->log;
    int forgotten = 0;
    pthread_mutex_lock(&c->lock);
    SEEN(log->synced == log->written || ((storage *)context)->is_unsynced);
    int kept = incarnation == c->news.incarnation && mz_dc_hear_mark(c->dc, incarnation, mark) == MZ_OK &&
               mz_dc_checkpoint(c->dc) == MZ_OK && mz_dc_forget(c->dc, &forgotten) == MZ_OK;
    pthread_mutex_unlock(&c->lock);
    return kept;
}

static inline void hold(component *c) {
    pthread_mutex_lock(&c->lock);
    c->held = 1;
    pthread_mutex_unlock(&c->lock);
}

static inline void let_go(component *c) {
    pthread_mutex_lock(&c->lock);
    c->held = 0;
    pthread_cond_broadcast(&c->moved);
    pthread_mutex_unlock(&c->lock);
}

/* Lets one batch go, which is on its way or the next. */
static inline void let_one_go(component *c) {
    pthread_mutex_lock(&c->lock);
    c->passes++;
    pthread_cond_broadcast(&c->moved);
    pthread_mutex_unlock(&c->lock);
}

/* From now on batches by this thread are counted. */
static inline void watch(component *c, pthread_t thread) {
    pthread_mutex_lock(&c->lock);
    c->watched = thread;
    c->by_watched = c->batches = 0;
    pthread_mutex_unlock(&c->lock);
}

/* Waits until somebody carries to it. */
static inline void until_within(component *c) {
    pthread_mutex_lock(&c->lock);
    while (!c->within) pthread_cond_wait(&c->moved, &c->lock);
    pthread_mutex_unlock(&c->lock);
}

static inline uint64_t balance_at(storage *s, uint16_t dc, uint64_t account) {
    const mz_record record = {dc, 0, account};
    uint8_t value[MZ_VALUE];
    mz_said said = MZ_ABSENT;
    pthread_mutex_lock(&s->of[dc].lock);
    SEEN(mz_dc_get(s->of[dc].dc, &record, &said, value) == MZ_OK);
    pthread_mutex_unlock(&s->of[dc].lock);
    return said == MZ_VALUE_IS ? mz_little(value, 8) : 0;
}

#endif
