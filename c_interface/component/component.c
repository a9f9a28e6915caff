/* A data component in memory, which keeps the nine rules of docs/COMPONENTS.md. Compiled with WRONG it breaks
 * one of them, so that `make try_component` can be seen to tell. */
#include "component.h"
#include <pthread.h>

#ifndef WRONG
#define WRONG 0
#endif
enum {
    PERFORMS_AGAIN = 1,      /* it keeps no number */
    ANSWERS_BY_NOW,          /* a number that comes again is answered by what the record is now */
    FORGETS_TOO_MUCH,        /* it forgets numbers above the low-water mark */
    ANSWERS_FIRST,           /* a write is answered before it is done */
    KEEPS_APART,             /* a number isn't kept in one step with its record: SIGKILL comes between */
    TELLS_NOBODY,            /* what it lost it lost without a new incarnation */
    COUNTS_WHAT_IT_LOST,     /* its new incarnation is one more than the kept one, which is lost as well */
    TELLS_THE_LOST_MARK,     /* its news have the mark that it had, not the one that it kept */
    HEARS_OTHER_INCARNATION, /* a wire of another incarnation raises its mark */
    DOES_OTHER_INCARNATION,  /* a wire of another incarnation is performed */
    FULL_ANSWERS,            /* where it is full it answers that the record isn't there */
    FULL_KEEPS_NOT,          /* where it is full it performs, and doesn't keep the number */
    CUTS_RECORDS_ALONE,      /* its records are cut back, and its numbers aren't: what is sent again is left out */
    IGNORES_SESSION,         /* a wire of another session is performed */
    FULL_REDOES_NOT,         /* where it is full it is silent to a redo */
    IGNORES_TABLE,
    CUTS_KEYS,               /* to 32 bits */
    REVERSES_VALUE,          /* the bytes of a value */
    FULL_UNDOES_NOT,         /* where it is full it is silent to what undoes */
    SERVES_ANYONE,           /* a session begins whatever is served */
    SERVES_AGAIN,            /* a session that has ended begins again */
    BATCH_KEEPS_HALF,        /* SIGKILL behind a batch: all is done, and half of its numbers aren't kept */
    BATCH_DOES_LATER,        /* the updates of a batch are done behind the next batch: the next one on a record comes first */
    BATCH_MARKS_FIRST,       /* a batch raises the mark and forgets, and its numbers are compared with the mark of before it */
    HEARS_OTHER_SESSION      /* a wire of another session raises the mark */
};

enum { RECORDS = 256, NUMBERS = 1 << 18, SESSIONS = 1024 };

typedef struct { int there; mz_record record; uint8_t value[MZ_VALUE]; } row;
typedef struct { int kept; mz_reply reply; } answer;
typedef struct {
    row rows[RECORDS];
    answer answers[NUMBERS];
    uint64_t mark, last[4]; /* the numbers that were performed last */
} store;

/* Durable at once, and apart from what can be lost: the last one is served. */
typedef struct { uint64_t begun[SESSIONS]; int count; } sessions;

struct component {
    pthread_mutex_t lock;
    store now, kept;
    sessions sessions;
    uint64_t incarnation; /* as they */
    uint64_t at_checkpoint;
    int full;
    mz_wire waiting[MZ_BATCH], batch[MZ_BATCH]; /* wires that are answered and not done; and the last batch */
    size_t waits, batched;
    int puts_off; /* updates wait */
};

component *component_open(const char *folder) {
    component *c = (component *)calloc(1, sizeof *c);
    (void)folder;
    if (c) pthread_mutex_init(&c->lock, NULL);
    return c;
}

void component_close(component *c) { free(c); }

static int is_wrong(int way) { return WRONG == way; }

static int is_of(const row *r, const mz_record *record) {
    int same_table = r->record.table == record->table || is_wrong(IGNORES_TABLE);
    int same_key = is_wrong(CUTS_KEYS) ? (uint32_t)r->record.key == (uint32_t)record->key : r->record.key == record->key;
    return r->there && same_table && same_key;
}

/* The bytes of a value, as they are put in and out. */
static void copied(uint8_t *to, const uint8_t *from) {
    memcpy(to, from, MZ_VALUE);
    for (int i = 0; is_wrong(REVERSES_VALUE) && i < MZ_VALUE / 2; i++) {
        uint8_t byte = to[i];
        to[i] = to[MZ_VALUE - 1 - i];
        to[MZ_VALUE - 1 - i] = byte;
    }
}

static row *row_of(store *s, const mz_record *record, int wanted) {
    row *free_row = NULL;
    for (row *r = s->rows; r < s->rows + RECORDS; r++) {
        if (is_of(r, record)) return r;
        if (!r->there) free_row = r;
    }
    if (wanted && free_row) free_row->record = *record;
    return wanted ? free_row : NULL;
}

static mz_said operate(store *s, const mz_wire *w, uint8_t *was) {
    row *r = row_of(s, &w->record, 0);
    if (w->op == MZ_INSERT && r) return MZ_DUPLICATE;
    if (w->op == MZ_INSERT) {
        if (!(r = row_of(s, &w->record, 1))) return MZ_NO_ROOM;
        r->there = 1;
        copied(r->value, w->value);
        return MZ_DONE;
    }
    if (!r) return w->op == MZ_READ ? MZ_ABSENT : MZ_MISSING;
    memcpy(was, r->value, MZ_VALUE);
    if (w->op == MZ_READ) return MZ_VALUE_IS;
    if (w->op == MZ_UPDATE) copied(r->value, w->value);
    if (w->op == MZ_DELETE) r->there = 0;
    return MZ_DONE_WAS;
}

/* What a number that comes again is answered by a component that looks at the record, and keeps no answer. */
static mz_said by_now(store *s, const mz_wire *w, uint8_t *was) {
    row *r = row_of(s, &w->record, 0);
    if (r && w->op != MZ_INSERT) memcpy(was, r->value, MZ_VALUE);
    if (w->op == MZ_INSERT) return r ? MZ_DUPLICATE : MZ_DONE;
    if (w->op == MZ_READ) return r ? MZ_VALUE_IS : MZ_ABSENT;
    return r ? MZ_DONE_WAS : MZ_MISSING;
}

/* Whether it has no room for this wire: what undoes and what is redone finds some. */
static int is_full(const component *c, const mz_wire *w) {
    if (w->redo) return c->full && is_wrong(FULL_REDOES_NOT);
    if (w->undoes) return c->full && is_wrong(FULL_UNDOES_NOT);
    return c->full;
}

/* Does the first of those that wait. */
static void do_waiting(component *c, size_t count) {
    for (size_t i = 0; i < count; i++) operate(&c->now, &c->waiting[i], (uint8_t[MZ_VALUE]){0});
    memmove(c->waiting, c->waiting + count, (c->waits - count) * sizeof *c->waiting);
    c->waits -= count;
}

static mz_carried performed(component *c, const mz_wire *w, mz_reply *reply) {
    store *s = &c->now;
    answer *a = &s->answers[w->number % NUMBERS];
    if (is_wrong(ANSWERS_FIRST)) do_waiting(c, c->waits);
    if (w->low_water > s->mark) s->mark = w->low_water;
    if (is_wrong(FORGETS_TOO_MUCH) && w->number > 3 && w->number - 3 > s->mark) s->answers[(w->number - 3) % NUMBERS].kept = 0;
    memset(reply, 0, sizeof *reply);
    reply->number = w->number;
    reply->incarnation = w->incarnation;
    reply->said = MZ_OLD;
    if (w->number <= s->mark) return MZ_REPLIED;
    if (a->kept && is_wrong(ANSWERS_BY_NOW)) {
        reply->said = by_now(s, w, reply->value);
        return MZ_REPLIED;
    }
    if (a->kept && !is_wrong(PERFORMS_AGAIN)) {
        *reply = a->reply;
        reply->incarnation = w->incarnation;
        return MZ_REPLIED;
    }
    int has_none = is_full(c, w);
    if (has_none && is_wrong(FULL_ANSWERS)) reply->said = w->op == MZ_READ ? MZ_ABSENT : MZ_MISSING;
    if (has_none && !is_wrong(FULL_KEEPS_NOT)) return is_wrong(FULL_ANSWERS) ? MZ_REPLIED : MZ_LOST;
    if ((is_wrong(ANSWERS_FIRST) || c->puts_off) && w->op == MZ_UPDATE && row_of(s, &w->record, 0) && c->waits < MZ_BATCH) {
        reply->said = by_now(s, w, reply->value);
        c->waiting[c->waits++] = *w;
    } else {
        reply->said = operate(s, w, reply->value);
    }
    a->kept = !(has_none && is_wrong(FULL_KEEPS_NOT));
    a->reply = *reply;
    memmove(s->last + 1, s->last, 3 * sizeof *s->last);
    s->last[0] = w->number;
    return MZ_REPLIED;
}

/* Whether it lacks the room to perform this wire. */
static int lacks_room(const component *c, const mz_wire *w) {
    return is_full(c, w) && w->number > c->now.mark && !c->now.answers[w->number % NUMBERS].kept;
}

/* The numbers of a batch are compared with the mark of before it, and what is under its own is forgotten. */
static mz_carried marked_first(component *c, const mz_wire *w, size_t count, mz_reply *replies) {
    uint64_t before = c->now.mark, mark = before;
    for (size_t i = 0; i < count; i++)
        if (w[i].low_water > mark) mark = w[i].low_water;
    for (size_t i = 0; i < count; i++) {
        if (w[i].number <= mark) c->now.answers[w[i].number % NUMBERS].kept = 0;
        performed(c, &w[i], &replies[i]);
        c->now.mark = before;
    }
    c->now.mark = mark;
    return MZ_REPLIED;
}

/* All of them, or none where one has no room. */
static mz_carried performed_all(component *c, const mz_wire *w, size_t count, mz_reply *replies) {
    size_t waited = c->waits;
    for (size_t i = 0; i < count; i++)
        if (lacks_room(c, &w[i])) return MZ_LOST;
    if (is_wrong(BATCH_MARKS_FIRST)) return marked_first(c, w, count, replies);
    c->puts_off = is_wrong(BATCH_DOES_LATER);
    for (size_t i = 0; i < count; i++) performed(c, &w[i], &replies[i]);
    c->puts_off = 0;
    if (is_wrong(BATCH_DOES_LATER)) do_waiting(c, waited);
    memcpy(c->batch, w, count * sizeof *w);
    c->batched = count;
    return MZ_REPLIED;
}

static uint64_t served(const sessions *s) { return s->count ? s->begun[s->count - 1] : 0; }

static int has_ended(const sessions *s, uint64_t session) {
    for (int i = 0; i < s->count - 1; i++)
        if (s->begun[i] == session) return !is_wrong(SERVES_AGAIN);
    return 0;
}

/* Behind this a loss loses nothing of before it. */
int component_begin(component *c, uint64_t session, uint64_t former) {
    sessions *s = &c->sessions;
    if (s->count && served(s) == session) return 1;
    if (has_ended(s, session) || s->count == SESSIONS) return 0;
    if (s->count && served(s) != former && !is_wrong(SERVES_ANYONE)) return 0;
    s->begun[s->count++] = session;
    memset(c->now.answers, 0, sizeof c->now.answers);
    c->now.mark = 0;
    c->kept = c->now;
    return 1;
}

mz_carried component_carry_many(component *c, const mz_wire *wires, size_t count, mz_reply *replies, mz_news *news) {
    mz_carried carried = MZ_RESTARTED;
    pthread_mutex_lock(&c->lock);
    if (wires->session != served(&c->sessions) && !is_wrong(IGNORES_SESSION)) {
        carried = MZ_RETIRED;
        if (is_wrong(HEARS_OTHER_SESSION) && wires->low_water > c->now.mark) c->now.mark = wires->low_water;
    } else if (wires->incarnation == c->incarnation || is_wrong(DOES_OTHER_INCARNATION)) {
        carried = count == 1 ? performed(c, wires, replies) : performed_all(c, wires, count, replies);
    } else {
        news->incarnation = c->incarnation;
        news->mark = c->now.mark;
        if (is_wrong(HEARS_OTHER_INCARNATION) && wires->low_water > c->now.mark) c->now.mark = wires->low_water;
    }
    pthread_mutex_unlock(&c->lock);
    return carried;
}

mz_carried component_carry(component *c, const mz_wire *wire, mz_reply *reply, mz_news *news) {
    return component_carry_many(c, wire, 1, reply, news);
}

int component_checkpoint(component *c) {
    c->kept = c->now;
    c->at_checkpoint = c->incarnation;
    return 1;
}

int component_kill(component *c, int loses) {
    uint64_t mark = c->now.mark;
    c->waits = 0;
    for (size_t i = c->batched / 2; is_wrong(BATCH_KEEPS_HALF) && i < c->batched; i++)
        c->now.answers[c->batch[i].number % NUMBERS].kept = 0;
    c->batched = 0;
    if (is_wrong(KEEPS_APART))
        for (int i = 0; i < 4; i++) c->now.answers[c->now.last[i] % NUMBERS].kept = 0;
    if (!loses) return 1;
    if (is_wrong(CUTS_RECORDS_ALONE)) memcpy(c->kept.answers, c->now.answers, sizeof c->now.answers);
    c->now = c->kept;
    if (is_wrong(TELLS_THE_LOST_MARK)) c->now.mark = mark;
    if (is_wrong(COUNTS_WHAT_IT_LOST)) c->incarnation = c->at_checkpoint;
    if (!is_wrong(TELLS_NOBODY)) c->incarnation++;
    return 1;
}

void component_fill(component *c, int full) { c->full = full; }
