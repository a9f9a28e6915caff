/* Four threads make 1,000 calls, each by mz_run under one lock that is let go while a wire is carried, and waits where
 * it stops. Data component 0 is away in their midst until so many wires were lost, or for so many seconds; 1 has then
 * lost what came behind its checkpoint, and its redo is broken off too. Each call ends, none is in doubt, and the sum of
 * the accounts is that of the deposits.
 *
 *     test_outages [SECONDS]
 *
 * Then by one thread: a request that was given up is taken up again, and an undo that finds no room goes on where
 * there is room again, and is stuck behind its fourth number; one that isn't answered spends none. */
#define _POSIX_C_SOURCE 200809L
#include "mazzulpe_object.h"
#include "deleting.h"
#include "seen.h"
#include <pthread.h>
#include <time.h>

enum { DCS = 2, THREADS = 4, CALLS = 1000, ACCOUNTS = 10, OPENING = 100, TRIES = 3, LOST = 3000, LOST_IN_REDO = 200 };

/* What the threads share. The lock is the transaction component's; `storage` that of all that follows it. */
typedef struct {
    mz_tc *tc;
    pthread_mutex_t lock, storage;
    pthread_cond_t freed;
    mz_dc *dcs[DCS];
    mz_news news[DCS];
    long carried, lost, away, away_in_redo, stops[MZ_DOWN + 1], ended[MZ_ENDED_NO_ROOM + 1];
    time_t seconds, back;
    int next, restarted;
} bank;

static void slept(long microseconds) {
    struct timespec left = {0, 1000 * microseconds};
    nanosleep(&left, NULL);
}

/* ---- storage that is away for a while */

static int is_away(bank *b, const mz_wire *wire) {
    if (b->carried == CALLS) {
        b->away = LOST;
        b->back = time(NULL) + b->seconds;
    }
    if (wire->redo && b->away_in_redo) return b->away_in_redo-- > 0;
    if (wire->record.dc != 0 || (b->away == 0 && time(NULL) >= b->back)) return 0;
    b->away -= b->away > 0;
    return 1;
}

/* Behind the outage data component 1 loses what came behind its checkpoint. */
static void restarts(bank *b) {
    b->restarted = b->lost && !b->away && time(NULL) >= b->back;
    if (b->restarted) SEEN(mz_dc_restart(b->dcs[1], &b->news[1]) == MZ_OK);
    if (b->restarted) b->away_in_redo = LOST_IN_REDO;
}

static mz_carried performed(bank *b, const mz_wire *wire, mz_reply *reply, mz_news *news) {
    uint16_t dc = wire->record.dc;
    b->carried++;
    if (is_away(b, wire)) {
        b->lost++;
        return MZ_LOST;
    }
    if (!b->restarted) restarts(b);
    *news = b->news[dc];
    if (wire->incarnation < news->incarnation) return MZ_RESTARTED;
    return mz_dc_perform(b->dcs[dc], wire, reply) == MZ_OK ? MZ_REPLIED : MZ_LOST;
}

/* Called under the lock, which is let go meanwhile. */
static mz_carried carry(void *context, const mz_wire *wire, mz_reply *reply, mz_news *news) {
    bank *b = (bank *)context;
    const mz_wire mine = *wire;
    pthread_mutex_unlock(&b->lock);
    pthread_mutex_lock(&b->storage);
    mz_carried carried = performed(b, &mine, reply, news);
    pthread_mutex_unlock(&b->storage);
    pthread_mutex_lock(&b->lock);
    return carried;
}

/* ---- calls by threads */

static void call(bank *b, const char *name, const uint64_t *args, size_t count) {
    uint64_t procedure = 0, txn = 0;
    mz_receipt receipt = {MZ_ABORTED, 0, 0};
    mz_next stopped = MZ_WAITS;
    mz_code code;
    SEEN(mz_find(b->tc, name, &procedure) == MZ_OK);
    while ((code = mz_admit(b->tc, procedure, args, count, &txn, NULL, NULL)) == MZ_BUSY) pthread_cond_wait(&b->freed, &b->lock);
    SEEN(code == MZ_OK);
    while (code == MZ_OK && (code = mz_run(b->tc, txn, carry, b, TRIES, &receipt, &stopped)) == MZ_OK && stopped != MZ_OVER) {
        b->stops[stopped]++;
        pthread_mutex_unlock(&b->lock);
        slept(200);
        pthread_mutex_lock(&b->lock);
    }
    SEEN(code == MZ_OK);
    b->ended[receipt.outcome]++;
    pthread_cond_broadcast(&b->freed);
}

static void *calls(void *context) {
    static const char *const names[] = {"move", "move_back", "touch"};
    bank *b = (bank *)context;
    pthread_mutex_lock(&b->lock);
    while (b->next < CALLS) {
        uint64_t n = (uint64_t)b->next++;
        const uint64_t args[] = {n % ACCOUNTS, n * 7 / 3 % ACCOUNTS, n % 60};
        call(b, names[n % 3], args, n % 3 == 2 ? 1 : 3);
    }
    pthread_mutex_unlock(&b->lock);
    return context;
}

/* ---- the bank */

static void started(bank *b) {
    mz_code code;
    memset(b, 0, sizeof *b);
    b->tc = mz_tc_new(DCS, &code);
    for (int d = 0; d < DCS; d++) b->dcs[d] = mz_dc_new(100, 10000, &code);
    if (!b->tc || !b->dcs[0] || !b->dcs[1] || mz_load_object_file(b->tc, "build/bank.o", NULL, NULL) != MZ_OK) exit(2);
    pthread_mutex_init(&b->lock, NULL);
    pthread_mutex_init(&b->storage, NULL);
    pthread_cond_init(&b->freed, NULL);
}

static void closed(bank *b) {
    mz_tc_free(b->tc);
    for (int d = 0; d < DCS; d++) mz_dc_free(b->dcs[d]);
}

static uint64_t sum(bank *b) {
    uint64_t all = 0;
    mz_record record;
    uint8_t value[MZ_VALUE];
    for (int d = 0; d < DCS; d++)
        for (uint64_t i = 0; mz_dc_row(b->dcs[d], i, &record, value) == MZ_OK; i++) all += mz_little(value, 8);
    return all;
}

static void by_threads(long seconds) {
    static bank b;
    pthread_t threads[THREADS];
    started(&b);
    pthread_mutex_lock(&b.lock);
    for (uint64_t n = 0; n < DCS * ACCOUNTS; n++) {
        const uint64_t args[] = {n / DCS, OPENING};
        call(&b, n % DCS ? "deposit_there" : "deposit_here", args, 2);
    }
    SEEN(mz_dc_checkpoint(b.dcs[1]) == MZ_OK);
    pthread_mutex_unlock(&b.lock);
    b.seconds = seconds;
    for (int i = 0; i < THREADS; i++)
        if (pthread_create(&threads[i], NULL, calls, &b)) exit(2);
    for (int i = 0; i < THREADS; i++) pthread_join(threads[i], NULL);
    SEEN(b.restarted && b.lost >= LOST + LOST_IN_REDO && b.stops[MZ_WAITS] && b.stops[MZ_DOWN]);
    SEEN(b.ended[MZ_COMMITTED] + b.ended[MZ_ABORTED] == CALLS + DCS * ACCOUNTS && b.ended[MZ_COMMITTED] > CALLS / 2);
    SEEN(mz_open_count(b.tc) == 0 && mz_low_water(b.tc) == mz_last_number(b.tc));
    SEEN(sum(&b) == DCS * ACCOUNTS * OPENING);
    printf("outages: %ld wires lost, %ld stops; %ld committed, %ld aborted, none in doubt\n", b.lost,
           b.stops[MZ_WAITS] + b.stops[MZ_DOWN], b.ended[MZ_COMMITTED], b.ended[MZ_ABORTED]);
    closed(&b);
}

/* ---- by one thread */

/* How a wire is carried: performed, lost, or an insert finds no room, or is lost. */
typedef struct { bank *b; int loses, full, carried, silent; } way;

static mz_carried by_way(void *context, const mz_wire *wire, mz_reply *reply, mz_news *news) {
    way *w = (way *)context;
    w->carried++;
    if (w->loses) return MZ_LOST;
    if (!w->full || wire->op != MZ_INSERT) return performed(w->b, wire, reply, news);
    if (w->silent) return MZ_LOST;
    memset(reply, 0, sizeof *reply);
    reply->number = wire->number;
    reply->said = MZ_NO_ROOM;
    return MZ_REPLIED;
}

/* Where it stops; nothing else changes. */
static mz_next ran(way *w, uint64_t txn) {
    mz_next stopped = MZ_RUNNING;
    mz_receipt receipt;
    w->carried = 0;
    SEEN(mz_run(w->b->tc, txn, by_way, w, TRIES, &receipt, &stopped) == MZ_OK);
    return stopped;
}

static void given_up(void) {
    static bank b;
    const uint64_t args[] = {1, 10};
    way w = {&b, 1, 0, 0, 0};
    uint64_t txn = 0, other = 0;
    int blocked = 7;
    mz_open open;
    mz_asked asked;
    started(&b);
    SEEN(mz_admit(b.tc, 0, args, 2, &txn, NULL, NULL) == MZ_OK);
    SEEN(ran(&w, txn) == MZ_WAITS && w.carried == TRIES && ran(&w, txn) == MZ_WAITS && w.carried == TRIES);
    SEEN(mz_open_from(b.tc, 0, &open) == MZ_OK && open.held && mz_blocked(b.tc, 0, args, 2, &blocked) == MZ_OK && !blocked);
    SEEN(mz_give_up(b.tc, txn, NULL) == MZ_OK && mz_blocked(b.tc, 0, args, 2, &blocked) == MZ_OK && blocked);
    w.loses = 0;
    SEEN(ran(&w, txn) == MZ_WAITS && w.carried == 0 && mz_admit(b.tc, 0, args, 2, &other, NULL, NULL) == MZ_BUSY);
    SEEN(mz_retake(b.tc, txn, &asked) == MZ_OK && asked.next == MZ_REQUEST && ran(&w, txn) == MZ_OVER);
    SEEN(mz_admit(b.tc, 0, args, 2, &other, NULL, NULL) == MZ_OK && ran(&w, other) == MZ_OVER && sum(&b) == 20);
    closed(&b);
}

/* A call that deletes record 0/0/1, and aborts. */
static uint64_t deletes(bank *b) {
    const uint64_t args[] = {1, 10};
    uint64_t number = 0, txn = 0;
    way w = {b, 0, 0, 0, 0};
    started(b);
    SEEN(load_deleting(b->tc, &number) == MZ_OK);
    SEEN(mz_admit(b->tc, 0, args, 2, &txn, NULL, NULL) == MZ_OK && ran(&w, txn) == MZ_OVER);
    SEEN(mz_admit(b->tc, number, NULL, 0, &txn, NULL, NULL) == MZ_OK);
    return txn;
}

static void without_room(void) {
    static bank b;
    way w = {&b, 0, 1, 0, 0};
    mz_open open;
    uint64_t txn = deletes(&b);
    SEEN(ran(&w, txn) == MZ_UNDOING && w.carried == 2 && ran(&w, txn) == MZ_UNDOING && w.carried == 1);
    w.full = 0;
    SEEN(ran(&w, txn) == MZ_OVER && w.carried == 1 && mz_open_count(b.tc) == 0 && sum(&b) == 10);
    closed(&b);
    txn = deletes(&b);
    w.full = 1;
    w.silent = 1;
    for (int i = 0; i < 100; i++) SEEN(ran(&w, txn) == MZ_UNDOING && w.carried == TRIES + !i && mz_last_number(b.tc) == 4);
    w.silent = 0;
    SEEN(ran(&w, txn) == MZ_UNDOING && mz_last_number(b.tc) == 4);
    closed(&b);
    txn = deletes(&b);
    for (int i = 0; i < 3; i++) SEEN(ran(&w, txn) == MZ_UNDOING);
    SEEN(ran(&w, txn) == MZ_STUCK && w.carried == 1);
    w.full = 0;
    SEEN(ran(&w, txn) == MZ_STUCK && w.carried == 0 && mz_open_count(b.tc) == 1 && sum(&b) == 0);
    SEEN(mz_open_from(b.tc, 0, &open) == MZ_OK && open.txn == txn && open.stranded && !open.waits);
    closed(&b);
}

int main(int count, char **words) {
    by_threads(count > 1 ? atol(words[1]) : 0);
    given_up();
    without_room();
    if (failures) printf("outages: NOT as they have to be\n");
    return failures != 0;
}
