/* mz_run and mz_redo end after `tries`, whatever is carried: nobody answers, a data component restarts at each
 * wire, or at each wire of its redo, or tells news that the log can't redo. And a data component that dies again before
 * it is redone one by one comes up by mz_redo_some. */
#include "mazzulpe_object.h"
#include "seen.h"

enum { TRIES = 3, GOOD = 0, LOSES, RESTARTS, RESTARTS_AT_REDO };

typedef struct { mz_tc *tc; mz_dc *dc; int how, carried; } world;

static mz_carried carry(void *context, const mz_wire *wire, mz_reply *reply, mz_news *news) {
    world *w = (world *)context;
    if (++w->carried > 1000) {
        printf("it doesn't end\n");
        exit(1);
    }
    if (w->how == LOSES) return MZ_LOST;
    if (w->how == RESTARTS || (w->how == RESTARTS_AT_REDO && wire->redo))
        return mz_dc_restart(w->dc, news) == MZ_OK ? MZ_RESTARTED : MZ_LOST;
    return mz_dc_perform(w->dc, wire, reply) == MZ_OK ? MZ_REPLIED : MZ_LOST;
}

static mz_code run(world *w, uint64_t txn, int how, mz_next *stopped, mz_receipt *receipt) {
    w->how = how;
    w->carried = 0;
    return mz_run(w->tc, txn, carry, w, TRIES, receipt, stopped);
}

static uint64_t deposit(world *w, uint64_t account) {
    const uint64_t args[] = {account, 10};
    uint64_t procedure = 0, txn = 0;
    SEEN(mz_find(w->tc, "deposit_here", &procedure) == MZ_OK);
    SEEN(mz_admit(w->tc, procedure, args, 2, &txn, NULL, NULL) == MZ_OK);
    return txn;
}

static void redone(world *w, int tries) {
    int up = 0;
    w->how = GOOD;
    SEEN(mz_redo(w->tc, 0, carry, w, tries, &up) == MZ_OK && up);
}

/* ---- several at once */

enum { LIFE = 30, DONE = 100, TRIPS = 1000 };

/* A data component that dies behind each so many round trips: in how many it is up, or 0. A round trip carries so many
 * wires of its redo. */
static int trips_to_be_up(size_t at_once) {
    mz_code code;
    mz_next stopped;
    mz_receipt receipt;
    mz_news news;
    mz_reply reply;
    mz_wire wires[16];
    size_t count = 1;
    int trip = 0;
    world w = {mz_tc_new(2, &code), mz_dc_new(DONE, 10 * DONE, &code), GOOD, 0};
    if (!w.tc || !w.dc || mz_load_object_file(w.tc, "build/bank.o", NULL, NULL) != MZ_OK) exit(2);
    for (uint64_t i = 0; i < DONE; i++) SEEN(run(&w, deposit(&w, i), GOOD, &stopped, &receipt) == MZ_OK);
    for (; count && trip < TRIPS; trip++) {
        if (trip % LIFE == 0) SEEN(mz_dc_restart(w.dc, &news) == MZ_OK && mz_told(w.tc, 0, &news) == MZ_OK);
        SEEN(mz_redo_some(w.tc, 0, wires, at_once, &count) == MZ_OK && count <= at_once);
        for (size_t i = 0; i < count; i++) {
            if (i) SEEN(wires[i].number > wires[i - 1].number && wires[i].redo && wires[i].op == MZ_INSERT);
            SEEN(mz_dc_perform(w.dc, &wires[i], &reply) == MZ_OK && mz_redone(w.tc, 0, &reply) == MZ_OK);
        }
    }
    SEEN(count || mz_redo_some(w.tc, 0, wires, at_once, &count) == MZ_NOT_DOWN);
    SEEN(count || mz_dc_rows(w.dc) == DONE);
    mz_dc_free(w.dc);
    mz_tc_free(w.tc);
    return count ? 0 : trip;
}

int main(void) {
    mz_code code;
    mz_next stopped;
    mz_receipt receipt;
    mz_news news;
    int up = 7, down = 0;
    world w;
    w.tc = mz_tc_new(2, &code);
    w.dc = mz_dc_new(10, 100, &code);
    if (!w.tc || !w.dc || mz_load_object_file(w.tc, "build/bank.o", NULL, NULL) != MZ_OK) return 2;
    SEEN(run(&w, deposit(&w, 1), GOOD, &stopped, &receipt) == MZ_OK && stopped == MZ_OVER);
    SEEN(receipt.outcome == MZ_COMMITTED && w.carried == 2);

    /* at each wire: so many restarts are heard of, and it is down; then it goes on */
    uint64_t txn = deposit(&w, 2);
    SEEN(run(&w, txn, RESTARTS, &stopped, &receipt) == MZ_OK && stopped == MZ_DOWN && w.carried == TRIES);
    SEEN(mz_site(w.tc, 0, NULL, &down) == MZ_OK && down);
    SEEN(run(&w, txn, LOSES, &stopped, &receipt) == MZ_OK && stopped == MZ_DOWN && w.carried == TRIES);
    SEEN(run(&w, txn, GOOD, &stopped, &receipt) == MZ_OK && stopped == MZ_OVER && receipt.outcome == MZ_COMMITTED);

    /* at each wire of the redo */
    SEEN(mz_dc_restart(w.dc, &news) == MZ_OK && mz_told(w.tc, 0, &news) == MZ_OK);
    w.how = RESTARTS_AT_REDO;
    w.carried = 0;
    SEEN(mz_redo(w.tc, 0, carry, &w, TRIES, &up) == MZ_OK && !up && w.carried == TRIES);
    w.how = LOSES;
    w.carried = 0;
    SEEN(mz_redo(w.tc, 0, carry, &w, TRIES, &up) == MZ_OK && !up && w.carried == TRIES);
    redone(&w, 1);

    /* nobody answers: it stops as often as it is called, and goes on to its end */
    txn = deposit(&w, 3);
    for (int i = 0; i < 3; i++)
        SEEN(run(&w, txn, LOSES, &stopped, &receipt) == MZ_OK && stopped == MZ_WAITS && w.carried == TRIES);
    SEEN(mz_open_count(w.tc) == 1);
    SEEN(run(&w, txn, GOOD, &stopped, &receipt) == MZ_OK && stopped == MZ_OVER && receipt.outcome == MZ_COMMITTED);

    /* one that doesn't live as long as its redo takes one by one comes up where several are under way */
    int trips = trips_to_be_up(16);
    SEEN(trips_to_be_up(1) == 0 && trips && trips <= LIFE);
    printf("restarts: %s\n", failures ? "NOT as they have to be" : "each run ends");
    mz_dc_free(w.dc);
    mz_tc_free(w.tc);
    return failures != 0;
}
