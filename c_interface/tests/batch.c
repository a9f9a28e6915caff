/* mazzulpe_batch.h: which wires go together, and what is carried where a data component is silent, over components that write
 * down what comes. */
#include "mazzulpe_batch.h"
#include "seen.h"

enum { DCS = 2, MOST = 4000 };

static mz_wire wires[MOST];
static mz_carried carried[MOST];
static mz_reply replies[MOST];
static mz_news news[MOST];
static size_t count, taken[MZ_BATCH];
static uint8_t done[MOST];
static mz_batch room;
static mz_batches batches;

/* A data component: how many batches it answers, and of how many wires it is full (-1: never); and the numbers that it performed,
 * each batch ended by 0. */
typedef struct { int dc, answers, full, batches; uint64_t performed[2 * MOST]; size_t count; mz_carried else_says; } component;

static component components[DCS];

static void begin(int first_answers, int first_full) {
    memset(components, 0, sizeof components);
    for (int d = 0; d < DCS; d++) components[d] = (component){.dc = d, .answers = d ? MOST : first_answers, .full = d ? -1 : first_full};
    memset(done, 0, sizeof done);
    count = 0;
}

/* The next wire, of the session 1 and incarnation 0. */
static mz_wire *wire(uint64_t number, uint16_t dc, mz_op op, uint64_t key) {
    mz_wire *w = &wires[count];
    memset(w, 0, sizeof *w);
    carried[count] = MZ_UNWRITTEN;
    w->number = number;
    w->op = op;
    w->record.dc = dc;
    w->record.key = key;
    w->session = 1;
    return &wires[count++];
}

static mz_carried performs(void *context, int sent, const mz_wire *w, size_t size, mz_reply *r, mz_news *n) {
    component *c = (component *)context;
    SEEN(sent == c->dc && size <= MZ_BATCH);
    for (size_t i = 0; i < size; i++) SEEN(w[i].record.dc == c->dc);
    n->incarnation = 7;
    n->mark = 3;
    if (c->batches++ >= c->answers) return c->else_says;
    for (size_t i = 0; i < size; i++)
        if (c->full >= 0 && !w[i].undoes && !w[i].redo) return MZ_LOST;
    for (size_t i = 0; i < size; i++) {
        c->performed[c->count++] = w[i].number;
        r[i].number = w[i].number;
        r[i].said = MZ_DONE;
    }
    c->count++;
    return MZ_REPLIED;
}

static int sends(void *context, const mz_wire *w, size_t size) {
    (void)w;
    (void)size;
    return ((component *)context)->dc;
}

static mz_carried performs_one(void *context, const mz_wire *w, mz_reply *r, mz_news *n) {
    (void)context;
    return performs(&components[w->record.dc], w->record.dc, w, 1, r, n);
}

static int is_performed(int dc, const uint64_t *wanted, size_t size) {
    const component *c = &components[dc];
    return c->count == size && !memcmp(c->performed, wanted, size * sizeof *wanted);
}

static void carry_each(void) {
    mz_one_carry one = {performs_one, NULL};
    mz_carry_each(&one, wires, count, carried, replies, news);
}

static void carry_batches(size_t most) {
    mz_batched to[DCS];
    for (int d = 0; d < DCS; d++) to[d] = (mz_batched){&components[d], d ? sends : NULL, performs, most};
    batches.components = to;
    batches.count = DCS;
    mz_carry_batches(&batches, wires, count, carried, replies, news);
}

static void looked_at_together(void) {
    begin(0, -1);
    wire(1, 0, MZ_READ, 5);
    wire(2, 0, MZ_READ, 5);        /* reads go together */
    wire(3, 1, MZ_UPDATE, 5);      /* another component's */
    wire(4, 0, MZ_UPDATE, 5);      /* waits for the reads */
    wire(5, 0, MZ_READ, 5);        /* and this for it */
    wire(6, 0, MZ_UPDATE, 6);
    wire(6, 0, MZ_READ, 7);        /* a number that is there */
    wire(7, 0, MZ_DELETE, 8)->incarnation = 1;
    wire(8, 0, MZ_INSERT, 8);      /* behind the one before it on its record, which waits */
    wire(9, 0, MZ_INSERT, 9)->session = 2;
    wire(10, 0, MZ_UPDATE, 5)->record.table = 3;
    SEEN(mz_together(&room, 0, wires, count, done, taken, MZ_BATCH) == 4);
    SEEN(taken[0] == 0 && taken[1] == 1 && taken[2] == 5 && taken[3] == 10);
    SEEN(mz_together(&room, 0, wires, count, done, taken, 2) == 2 && taken[0] == 0 && taken[1] == 1);
    done[0] = done[1] = done[5] = done[10] = 1;
    SEEN(mz_together(&room, 0, wires, count, done, taken, MZ_BATCH) == 2 && taken[0] == 3 && taken[1] == 6);
    SEEN(mz_together(&room, 2, wires, count, done, taken, MZ_BATCH) == 0);
}

/* Of a component that is full what undoes goes on, what waits for a lost one on its record excepted. */
static void looked_at_full(void (*carry)(void)) {
    begin(MOST, 0);
    wire(1, 0, MZ_UPDATE, 1);
    wire(2, 0, MZ_UPDATE, 2)->undoes = 1;
    wire(3, 1, MZ_UPDATE, 3);
    wire(4, 0, MZ_UPDATE, 4);
    wire(5, 0, MZ_UPDATE, 2)->redo = 1;
    wire(6, 0, MZ_UPDATE, 1)->undoes = 1;
    carry();
    SEEN(carried[0] == MZ_LOST && carried[3] == MZ_LOST && carried[5] == MZ_LOST);
    SEEN(carried[1] == MZ_REPLIED && carried[2] == MZ_REPLIED && carried[4] == MZ_REPLIED && replies[4].number == 5);
    SEEN(is_performed(0, (const uint64_t[]){2, 0, 5, 0}, 4) && is_performed(1, (const uint64_t[]){3, 0}, 2));
}

/* One that is away is asked no more: each redo would wait as long, and may not go before the lost one. */
static void looked_at_away(void (*carry)(void), int asked) {
    begin(1, -1);
    wire(1, 0, MZ_UPDATE, 1)->redo = 1;
    wire(2, 0, MZ_UPDATE, 1)->redo = 1;
    wire(3, 0, MZ_UPDATE, 1)->redo = 1;
    wire(4, 1, MZ_UPDATE, 1);
    wire(5, 0, MZ_UPDATE, 2)->redo = 1;
    carry();
    SEEN(carried[0] == MZ_REPLIED && carried[1] == MZ_LOST && carried[2] == MZ_LOST && carried[3] == MZ_REPLIED);
    SEEN(components[0].batches == asked);
}

static void carry_some(void) { carry_batches(MZ_BATCH); }

static void looked_at_news(void) {
    begin(0, -1);
    components[0].else_says = MZ_RESTARTED;
    wire(1, 0, MZ_UPDATE, 1)->undoes = 1;
    wire(2, 0, MZ_UPDATE, 2);
    wire(3, 0, MZ_UPDATE, 1);
    wire(4, DCS, MZ_UPDATE, 1); /* to nobody */
    carry_some();
    SEEN(carried[0] == MZ_RESTARTED && carried[1] == MZ_RESTARTED && carried[2] == MZ_LOST && carried[3] == MZ_LOST);
    SEEN(news[1].incarnation == 7 && news[1].mark == 3 && components[0].batches == 1);
}

/* More than go at once: each once, on a record in their order, none behind one that was lost. */
static void looked_at_many(int answers) {
    static uint64_t last[100];
    memset(last, 0, sizeof last);
    begin(answers, -1);
    while (count < MOST) wire(count + 1, 0, MZ_UPDATE, count % 100)->redo = 1;
    carry_batches(70);
    size_t performed = 0;
    for (size_t i = 0; i < components[0].count; i++) {
        uint64_t number = components[0].performed[i];
        if (!number) continue;
        uint64_t *before = &last[(number - 1) % 100];
        SEEN(number == (*before ? *before + 100 : (number - 1) % 100 + 1) && carried[number - 1] == MZ_REPLIED);
        *before = number;
        performed++;
    }
    size_t replied = 0;
    for (size_t i = 0; i < MOST; i++) replied += carried[i] == MZ_REPLIED;
    SEEN(performed == replied && (answers == MOST ? performed == MOST : components[0].batches == answers + 1));
}

int main(void) {
    looked_at_together();
    looked_at_full(carry_each);
    looked_at_full(carry_some);
    looked_at_away(carry_each, 2);
    looked_at_away(carry_some, 2);
    looked_at_news();
    looked_at_many(MOST);
    looked_at_many(5);
    if (!failures) printf("batches: each wire once, in order, and what undoes also where a component is full\n");
    return failures != 0;
}
