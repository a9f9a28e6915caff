/* The gate of example/gate.h, by two threads: what waits at it, and for whom; what bars a checkpoint, and that admissions go
 * on then. */
#define _POSIX_C_SOURCE 200809L
#include "mazzulpe_object.h"
#include "example/gate.h"
#include "seen.h"

enum { DCS = 2, TRIES = 1, LONG = 60000, SHORT = 20 };

static const uint64_t args[] = {1, 10}, other_args[] = {2, 10};
static pthread_mutex_t lock = PTHREAD_MUTEX_INITIALIZER;
static gate g;
static mz_tc *tc;
static mz_dc *dcs[DCS];
static int loses;

static mz_carried carry(void *context, const mz_wire *wire, mz_reply *reply, mz_news *news) {
    (void)context;
    (void)news;
    return !loses && mz_dc_perform(dcs[wire->record.dc], wire, reply) == MZ_OK ? MZ_REPLIED : MZ_LOST;
}

static uint64_t admitted(const uint64_t *of) {
    uint64_t txn = 0;
    gate_pass(&g);
    SEEN(!g.closed && mz_admit(tc, 0, of, 2, &txn, NULL, NULL) == MZ_OK);
    return txn;
}

static mz_next ran(uint64_t txn) {
    mz_next stopped = MZ_RUNNING;
    mz_receipt receipt;
    SEEN(mz_run(tc, txn, carry, NULL, TRIES, &receipt, &stopped) == MZ_OK);
    if (stopped == MZ_OVER) gate_ended(&g);
    return stopped;
}

static mz_code closed(long milliseconds, uint64_t *by) {
    mz_open open = {0};
    mz_code c = gate_close(&g, tc, milliseconds, &open);
    *by = open.txn;
    SEEN(g.closed == (c == MZ_OK));
    return c;
}

/* What the other thread does once it sees the gate closed: ends a transaction, or gives it up; then it is admitted itself. */
typedef struct { uint64_t txn; int gives_up; uint64_t own; } other;

static void *beside(void *context) {
    other *o = (other *)context;
    pthread_mutex_lock(&lock);
    while (!g.closed) {
        pthread_mutex_unlock(&lock);
        pthread_mutex_lock(&lock);
    }
    SEEN(ran(o->txn) == (o->gives_up ? MZ_WAITS : MZ_OVER));
    if (o->gives_up) SEEN(mz_give_up(tc, o->txn, NULL) == MZ_OK);
    if (o->gives_up) gate_strands(&g);
    o->own = admitted(other_args);
    pthread_mutex_unlock(&lock);
    return context;
}

static void begun_anew(void) {
    uint64_t mark = mz_low_water(tc);
    for (int d = 0; d < DCS; d++) SEEN(mz_dc_hear_mark(dcs[d], 0, mark) == MZ_OK && mz_dc_checkpoint(dcs[d]) == MZ_OK);
    SEEN(mz_checkpoint(tc, mark) == MZ_OK && mz_log_length(tc) == 1);
    gate_open(&g);
}

/* It waits for what is open; who comes meanwhile waits for the checkpoint, and is admitted behind it. */
static void waits_for_an_end(void) {
    other o = {admitted(args), 0, 0};
    pthread_t thread;
    uint64_t by = 0;
    if (pthread_create(&thread, NULL, beside, &o)) exit(2);
    SEEN(closed(LONG, &by) == MZ_OK && mz_open_count(tc) == 0 && o.own == 0);
    begun_anew();
    pthread_mutex_unlock(&lock);
    pthread_join(thread, NULL);
    pthread_mutex_lock(&lock);
    SEEN(o.own && ran(o.own) == MZ_OVER);
}

/* One that is given up while it waits: it says which at once, and who waited is admitted. */
static void is_barred_by_one_in_doubt(void) {
    other o = {admitted(args), 1, 0};
    pthread_t thread;
    uint64_t by = 0;
    mz_asked asked;
    loses = 1;
    if (pthread_create(&thread, NULL, beside, &o)) exit(2);
    SEEN(closed(LONG, &by) == MZ_TXNS_OPEN && by == o.txn);
    pthread_mutex_unlock(&lock);
    pthread_join(thread, NULL);
    pthread_mutex_lock(&lock);
    loses = 0;
    SEEN(o.own && ran(o.own) == MZ_OVER && closed(LONG, &by) == MZ_TXNS_OPEN && by == o.txn);
    SEEN(mz_retake(tc, o.txn, &asked) == MZ_OK);
    gate_retakes(&g);
    SEEN(ran(o.txn) == MZ_OVER && closed(LONG, &by) == MZ_OK);
    begun_anew();
}

/* The oldest of two that don't end in time. */
static void is_late(void) {
    uint64_t by = 0, txn = admitted(args), later = admitted(other_args);
    SEEN(closed(SHORT, &by) == MZ_TXNS_OPEN && by == txn && ran(txn) == MZ_OVER && ran(later) == MZ_OVER);
}

/* A data component that is down. */
static void is_down(void) {
    mz_news news;
    uint64_t by = 0;
    int up = 0;
    SEEN(mz_dc_restart(dcs[1], &news) == MZ_OK && mz_told(tc, 1, &news) == MZ_OK && closed(LONG, &by) == MZ_ONE_DOWN);
    SEEN(mz_redo(tc, 1, carry, NULL, TRIES, &up) == MZ_OK && up && closed(LONG, &by) == MZ_OK);
    gate_open(&g);
}

int main(void) {
    mz_code code;
    tc = mz_tc_new(DCS, &code);
    for (int d = 0; d < DCS; d++) dcs[d] = mz_dc_new(100, 1000, &code);
    if (!tc || !dcs[0] || !dcs[1] || mz_load_object_file(tc, "build/bank.o", NULL, NULL) != MZ_OK) exit(2);
    if (gate_new(&g, &lock)) exit(2);
    pthread_mutex_lock(&lock);
    waits_for_an_end();
    is_barred_by_one_in_doubt();
    is_late();
    is_down();
    pthread_mutex_unlock(&lock);
    mz_tc_free(tc);
    for (int d = 0; d < DCS; d++) mz_dc_free(dcs[d]);
    printf("gate: %s\n", failures ? "NOT as it has to be" : "as it has to be");
    return failures != 0;
}
