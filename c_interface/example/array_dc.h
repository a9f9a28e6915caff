/* A data component over an array, by the rules of docs/COMPONENTS.md: accounts, and what was answered to the numbers
 * above the mark. Its image is all that a checkpoint has to keep of it. */
#ifndef ARRAY_DC_H
#define ARRAY_DC_H

#include "mazzulpe.h"

enum { ACCOUNTS = 1000, NUMBERS = 1 << 17 };

typedef struct { int there; uint8_t value[MZ_VALUE]; } account;
typedef struct { uint64_t number; mz_reply reply; } answer;
typedef struct { uint64_t mark; account accounts[ACCOUNTS]; } array_image;
typedef struct { array_image *now; answer answers[NUMBERS]; uint64_t incarnation; } array_dc;

static inline mz_said array_operated(account *a, const mz_wire *w, uint8_t *was) {
    if (w->op == MZ_INSERT && a->there) return MZ_DUPLICATE;
    if (w->op != MZ_INSERT && !a->there) return w->op == MZ_READ ? MZ_ABSENT : MZ_MISSING;
    if (a->there) memcpy(was, a->value, MZ_VALUE);
    if (w->op == MZ_READ) return MZ_VALUE_IS;
    a->there = w->op != MZ_DELETE;
    memcpy(a->value, w->value, MZ_VALUE);
    return w->op == MZ_INSERT ? MZ_DONE : MZ_DONE_WAS;
}

static inline mz_carried array_perform(array_dc *dc, const mz_wire *w, mz_reply *reply) {
    answer *a = &dc->answers[w->number % NUMBERS];
    array_image *s = dc->now;
    if (w->incarnation != dc->incarnation || w->record.key >= ACCOUNTS) return MZ_LOST;
    if (w->low_water > s->mark) s->mark = w->low_water;
    memset(reply, 0, sizeof *reply);
    reply->number = w->number;
    reply->incarnation = dc->incarnation;
    reply->said = MZ_OLD;
    if (w->number <= s->mark) return MZ_REPLIED;
    if (a->number != w->number) {
        if (a->number > s->mark) return MZ_LOST; /* full */
        reply->said = array_operated(&s->accounts[w->record.key], w, reply->value);
        a->number = w->number;
        a->reply = *reply;
    }
    *reply = a->reply;
    return MZ_REPLIED;
}

#endif
