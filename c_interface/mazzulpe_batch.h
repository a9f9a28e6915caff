/* mazzulpe_batch.h: many wires in one message. A round trip, a statement and a transaction of a data component cost the same for
 * one wire as for hundreds; whoever has many open calls carries the wires of all of them at once.
 *
 *     a component      takes a batch: wires of one session and incarnation, no number twice, no two on one record of which one
 *                      writes. It is as its wires one after the other, all of them or none (rule 9 of docs/COMPONENTS.md)
 *     mz_together      picks wires that may go in one batch, each on a record after those before it
 *     mz_carry_many    carries wires of any components: what mz_carry does of one, of many
 *     mz_carry_batches is one, over components that take batches; mz_carry_each is one over those that don't
 *
 * It uses mazzulpe.h alone, and no library of a system's. */
#ifndef MAZZULPE_BATCH_H
#define MAZZULPE_BATCH_H

#include "mazzulpe.h"

#ifdef __cplusplus
extern "C" {
#endif

/* Carries `count` wires, of any data components. Of wire i carried[i] says what mz_carry would answer, with replies[i] or news[i].
 * On one record an earlier wire comes before a later one; of others no order is promised. */
typedef void mz_carry_many(void *context, const mz_wire *wires, size_t count, mz_carried *carried, mz_reply *replies, mz_news *news);

enum { MZ_BATCH = 1024, MZ_BATCH_PLACES = 4 * MZ_BATCH }; /* the most wires of a batch */

/* ---- inside */

/* A record or a number that was met, in the pass that `pass` counts. */
typedef struct { uint64_t key; uint32_t table, pass; int excludes; } mz_met;

static inline mz_met *mz_meet(mz_met *table_of, uint32_t pass, uint64_t key, uint32_t table) {
    uint64_t place = (key * 0x9e3779b97f4a7c15u ^ table) * 0xff51afd7ed558ccdu >> 52;
    while (table_of[place].pass == pass && (table_of[place].key != key || table_of[place].table != table))
        place = (place + 1) % MZ_BATCH_PLACES;
    return &table_of[place];
}

/* ---- */

/* What mz_together needs for its look-ups: some 200 KB, zeros at first; of one thread at a time. */
typedef struct { mz_met records[MZ_BATCH_PLACES], numbers[MZ_BATCH_PLACES]; uint32_t pass; } mz_batch;

/* Puts into `taken` the places of wires of data component `dc` that may go in one batch, at most `most` of them and MZ_BATCH: the
 * first that isn't done, and each later one of its session and incarnation, with a number of its own, that no wire before it, taken or
 * waiting, excludes by its record. done[i] is 0 of wires that are to go. How many it took; 0 where none is left. It looks at 2 * MZ_BATCH
 * wires of `dc` at most. */
static inline size_t mz_together(mz_batch *batch, uint16_t dc, const mz_wire *wires, size_t count, const uint8_t *done, size_t *taken,
                                 size_t most) {
    const mz_wire *first = NULL;
    size_t took = 0, looked = 0;
    if (++batch->pass == 0) {
        memset(batch, 0, sizeof *batch);
        batch->pass = 1;
    }
    for (size_t i = 0; i < count && took < most && took < MZ_BATCH && looked < 2 * MZ_BATCH; i++) {
        const mz_wire *wire = &wires[i];
        if (done[i] || wire->record.dc != dc) continue;
        looked++;
        mz_met *record = mz_meet(batch->records, batch->pass, wire->record.key, wire->record.table);
        mz_met *number = mz_meet(batch->numbers, batch->pass, wire->number, 0);
        int is_known = record->pass == batch->pass, writes = wire->op != MZ_READ;
        int other = first && (first->session != wire->session || first->incarnation != wire->incarnation);
        int waits = other || number->pass == batch->pass || (is_known && (record->excludes || writes));
        int excludes = writes || waits || (is_known && record->excludes);
        record->key = wire->record.key;
        record->table = wire->record.table;
        record->pass = batch->pass;
        record->excludes = excludes;
        if (waits) continue;
        number->key = wire->number;
        number->table = 0;
        number->pass = batch->pass;
        if (!first) first = wire;
        taken[took++] = i;
    }
    return took;
}

/* Of a data component that is full, or away. What undoes or is redone is performed also where it is full. */
static inline int mz_finds_room(const mz_wire *wire) { return wire->undoes || wire->redo; }

/* Whether a wire may still go where one of the first `count` got no reply: not before that one on its record, and else what finds
 * room, until that gets none either. */
static inline int mz_may_go(const mz_wire *wires, const mz_carried *carried, size_t count, size_t at) {
    for (size_t i = 0; i < count; i++) {
        const mz_record *before = &wires[i].record, *own = &wires[at].record;
        if (carried[i] == MZ_REPLIED || before->dc != own->dc) continue;
        if (!mz_finds_room(&wires[at]) || mz_finds_room(&wires[i])) return 0;
        if (before->table == own->table && before->key == own->key) return 0;
    }
    return 1;
}

/* How mz_carry_each reaches a component that takes one wire at a time. */
typedef struct { mz_carry *carry; void *context; } mz_one_carry;

/* An mz_carry_many over an mz_one_carry, for components without batches: one wire after the other. Behind one that got no reply
 * others of its data component aren't carried, but for those that undo or are redone. */
static inline void mz_carry_each(void *context, const mz_wire *wires, size_t count, mz_carried *carried, mz_reply *replies,
                                 mz_news *news) {
    const mz_one_carry *one = (const mz_one_carry *)context;
    int is_silent = 0;
    for (size_t i = 0; i < count; i++) {
        carried[i] = MZ_LOST;
        if (!is_silent || mz_may_go(wires, carried, i, i)) carried[i] = one->carry(one->context, &wires[i], &replies[i], &news[i]);
        is_silent |= carried[i] != MZ_REPLIED;
    }
}

/* ---- batches */

/* How a data component is given batches. What becomes of one becomes of each wire in it. */
typedef struct {
    void *component;
    /* Sends a batch and waits for nothing: what `receive` is then given once, or negative where nothing was sent. NULL: `receive`
     * does it all. */
    int (*send)(void *component, const mz_wire *wires, size_t count);
    /* What became of the batch: MZ_REPLIED, and replies[i] to wires[i]; MZ_RESTARTED, and *news; or as mz_carry answers. */
    mz_carried (*receive)(void *component, int sent, const mz_wire *wires, size_t count, mz_reply *replies, mz_news *news);
    size_t most; /* wires of a batch, 1 to MZ_BATCH */
} mz_batched;

/* Carries one batch. */
static inline mz_carried mz_carry_batch(const mz_batched *to, const mz_wire *wires, size_t count, mz_reply *replies, mz_news *news) {
    int sent = to->send ? to->send(to->component, wires, count) : 0;
    return sent < 0 ? MZ_LOST : to->receive(to->component, sent, wires, count, replies, news);
}

enum { MZ_BATCHES = 64 }; /* the most that are on their way at once */

/* What mz_carry_batches needs: the data components from 0 on, and room, some 450 KB, zeros at first; of one thread at a time. */
typedef struct {
    const mz_batched *components;
    uint16_t count;
    mz_batch batch;
    mz_wire wires[MZ_BATCH]; /* batch after batch, as they are sent */
    mz_reply replies[MZ_BATCH];
    size_t places[MZ_BATCH]; /* theirs in what was handed over */
    uint8_t done[MZ_BATCH];
    struct { uint16_t dc; int sent; size_t from, count; } on_way[MZ_BATCHES];
} mz_batches;

/* Sends a batch to each data component that has wires to go. How many. */
static inline size_t mz_send_batches(mz_batches *b, const mz_wire *wires, size_t count) {
    size_t sent = 0, from = 0;
    for (uint16_t dc = 0; dc < b->count && sent < MZ_BATCHES; dc++) {
        const mz_batched *to = &b->components[dc];
        size_t took = mz_together(&b->batch, dc, wires, count, b->done, b->places + from, to->most);
        for (size_t i = from; i < from + took; i++) {
            b->wires[i] = wires[b->places[i]];
            b->done[b->places[i]] = 1;
        }
        if (!took) continue;
        b->on_way[sent].dc = dc;
        b->on_way[sent].from = from;
        b->on_way[sent].count = took;
        b->on_way[sent++].sent = to->send ? to->send(to->component, b->wires + from, took) : 0;
        from += took;
    }
    return sent;
}

/* A batch got no reply: its data component's other wires aren't asked for in this call, since each batch would wait as long. What
 * finds room goes once more, without those that don't. */
static inline void mz_batch_lost(mz_batches *b, uint16_t dc, int has_others, const mz_wire *wires, size_t count, mz_carried *carried) {
    for (size_t i = 0; i < count; i++) {
        if (wires[i].record.dc != dc || carried[i] == MZ_REPLIED) continue;
        b->done[i] = !has_others || !mz_finds_room(&wires[i]);
        for (size_t k = 0; k < i && !b->done[i]; k++) {
            const mz_record *before = &wires[k].record, *own = &wires[i].record;
            b->done[i] = carried[k] != MZ_REPLIED && !mz_finds_room(&wires[k]) && before->dc == dc && before->table == own->table &&
                         before->key == own->key;
        }
    }
}

/* Waits for a batch that is on its way. */
static inline void mz_receive_batch(mz_batches *b, size_t which, const mz_wire *wires, size_t count, mz_carried *carried, mz_reply *replies,
                                    mz_news *news) {
    const mz_batched *to = &b->components[b->on_way[which].dc];
    const mz_wire *own = b->wires + b->on_way[which].from;
    const size_t *places = b->places + b->on_way[which].from, size = b->on_way[which].count;
    mz_reply *heard = b->replies + b->on_way[which].from;
    mz_news told = {0, 0};
    mz_carried all = MZ_LOST;
    int has_others = 0;
    if (b->on_way[which].sent >= 0) all = to->receive(to->component, b->on_way[which].sent, own, size, heard, &told);
    for (size_t i = 0; i < size; i++) {
        carried[places[i]] = all;
        if (all == MZ_REPLIED) replies[places[i]] = heard[i];
        if (all == MZ_RESTARTED) news[places[i]] = told;
        has_others |= !mz_finds_room(&own[i]);
    }
    if (all != MZ_REPLIED) mz_batch_lost(b, b->on_way[which].dc, all == MZ_LOST && has_others, wires, count, carried);
}

/* An mz_carry_many over an mz_batches: to all data components at once, and again, until each wire has gone. Those of a data
 * component that isn't there are lost. */
static inline void mz_carry_batches(void *context, const mz_wire *wires, size_t count, mz_carried *carried, mz_reply *replies,
                                    mz_news *news) {
    mz_batches *b = (mz_batches *)context;
    size_t some = MZ_BATCH, sent;
    int is_silent = 0;
    for (size_t from = 0; from < count; from += some) {
        if (some > count - from) some = count - from;
        for (size_t i = 0; i < some; i++) {
            b->done[i] = is_silent && !mz_may_go(wires, carried, from, from + i);
            carried[from + i] = MZ_LOST;
        }
        while ((sent = mz_send_batches(b, wires + from, some)) > 0)
            for (size_t i = 0; i < sent; i++)
                mz_receive_batch(b, i, wires + from, some, carried + from, replies + from, news + from);
        for (size_t i = 0; i < some; i++) is_silent |= carried[from + i] != MZ_REPLIED;
    }
}

#ifdef __cplusplus
}
#endif

#endif
