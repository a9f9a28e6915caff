/* What is seen of open transactions from outside: at each step of three calls who is open, who waits for which data
 * component, and who holds which locks; and that looking changes nothing. */
#include "mazzulpe_object.h"
#include "seen.h"

enum { DCS = 2, CALLS = 3 };

/* mov r0, 0; exit */
static const uint8_t answers_0[16] = {0xb7, 0, 0, 0, 0, 0, 0, 0, 0x95};
/* Two slots of one record, and one of a lesser, whose key is the argument. */
static const mz_slot slots[3] = {{0, 1, 2, 0, 9}, {1, 1, 2, 0, 9}, {0, 0, 7, 1, 0}};

/* A call, and what is known of it: where it was admitted, its locks by rising record, and what it waits for. */
typedef struct {
    const char *name;
    uint64_t args[2];
    size_t count;
    mz_lock locks[2];
    uint64_t txn, place;
    mz_asked asked;
    int waits, held, over;
} known;

static known calls[CALLS] = {
    {"deposit_there", {4, 10}, 2, {{0, {1, 0, 4}, 1}, {0, {0, 0, 0}, 0}}, 0, 0, {MZ_RUNNING, {0}}, 0, 0, 0},
    {"reads", {3, 0}, 1, {{0, {0, 7, 3}, 0}, {0, {1, 2, 9}, 1}}, 0, 0, {MZ_RUNNING, {0}}, 0, 0, 0},
    {"deposit_here", {4, 10}, 2, {{0, {0, 0, 4}, 1}, {0, {0, 0, 0}, 0}}, 0, 0, {MZ_RUNNING, {0}}, 0, 0, 0},
};

static int same_record(const mz_record *a, const mz_record *b) { return a->dc == b->dc && a->table == b->table && a->key == b->key; }

static void looked_at_locks(mz_tc *tc, const known *k) {
    mz_lock lock = {0, {0, 0, 0}, 0};
    uint64_t count = k->locks[1].record.dc ? 2 : 1;
    for (uint64_t i = 0; i < count; i++) {
        SEEN(mz_lock_at(tc, k->place, i, &lock) == (k->over ? MZ_NO_PLACE : MZ_OK));
        if (k->over) continue;
        SEEN(lock.txn == k->txn && lock.write == k->locks[i].write && same_record(&lock.record, &k->locks[i].record));
    }
    SEEN(mz_lock_at(tc, k->place, count, &lock) == MZ_NO_PLACE && mz_lock_at(tc, k->place, UINT64_MAX, &lock) == MZ_NO_PLACE);
}

static void is_told(const known *k, const mz_open *open) {
    SEEN(open->txn == k->txn && open->place == k->place && open->waits == k->waits);
    SEEN(open->stranded == (k->waits && !k->held));
    if (!k->waits) return;
    SEEN(open->number == k->asked.wire.number && open->op == k->asked.wire.op && open->held == k->held);
    SEEN(same_record(&open->record, &k->asked.wire.record));
}

/* Those that are open, of a data component (of DCS: of all) those that wait for it. */
static void looked_at_open(mz_tc *tc, int dc) {
    mz_open open;
    uint64_t place = 0;
    memset(&open, 0, sizeof open);
    for (int i = 0; i < CALLS; i++) {
        const known *k = &calls[i];
        if (!k->txn || k->over || (dc < DCS && (!k->waits || k->asked.wire.record.dc != dc))) continue;
        SEEN((dc < DCS ? mz_waiting_from(tc, (uint16_t)dc, place, &open) : mz_open_from(tc, place, &open)) == MZ_OK);
        is_told(k, &open);
        place = open.place + 1;
    }
    SEEN((dc < DCS ? mz_waiting_from(tc, (uint16_t)dc, place, &open) : mz_open_from(tc, place, &open)) == MZ_NO_PLACE);
}

static void looked(mz_tc *tc) {
    uint64_t length = mz_log_length(tc);
    mz_open open;
    mz_lock lock;
    for (int dc = 0; dc <= DCS; dc++) looked_at_open(tc, dc);
    for (int i = 0; i < CALLS; i++)
        if (calls[i].txn) looked_at_locks(tc, &calls[i]);
    SEEN(mz_waiting_from(tc, DCS, 0, &open) == MZ_NO_PLACE && mz_lock_at(tc, length, 0, &lock) == MZ_NO_PLACE);
    SEEN(mz_lock_at(tc, UINT64_MAX, 0, &lock) == MZ_NO_PLACE && mz_log_length(tc) == length);
}

static void admitted(mz_tc *tc, known *k) {
    uint64_t number = 0;
    k->place = mz_log_length(tc);
    SEEN(mz_find(tc, k->name, &number) == MZ_OK && mz_admit(tc, number, k->args, k->count, &k->txn, NULL, NULL) == MZ_OK);
}

/* A step to the next question, its answer, or its end; each second request is given up and taken up again. */
static void stepped(mz_tc *tc, mz_dc *dc, known *k) {
    mz_reply reply;
    mz_receipt receipt;
    if (k->over) return;
    if (k->waits && k->held && k->asked.wire.number % 2 == 0 && mz_give_up(tc, k->txn, NULL) == MZ_OK) {
        k->held = 0;
        looked(tc);
        SEEN(mz_retake(tc, k->txn, &k->asked) == MZ_OK);
        k->held = 1;
    }
    if (k->waits) {
        SEEN(mz_dc_perform(dc, &k->asked.wire, &reply) == MZ_OK && mz_answer(tc, k->txn, &reply) == MZ_OK);
        k->waits = k->held = 0;
        return;
    }
    SEEN(mz_ask(tc, k->txn, &k->asked) == MZ_OK);
    k->waits = k->held = k->asked.next == MZ_REQUEST;
    k->over = k->asked.next == MZ_OVER;
    if (k->over) SEEN(mz_end(tc, k->txn, &receipt) == MZ_OK && receipt.outcome == MZ_COMMITTED);
}

int main(void) {
    mz_code code;
    uint64_t number;
    mz_tc *tc = mz_tc_new(DCS, &code);
    mz_dc *dc = mz_dc_new(10, 100, &code);
    if (!tc || !dc || mz_load_object_file(tc, "build/bank.o", NULL, NULL) != MZ_OK) return 2;
    if (mz_load(tc, "reads", answers_0, sizeof answers_0, slots, 3, 1, &number, NULL) != MZ_OK) return 2;
    looked(tc);
    for (int i = 0; i < CALLS; i++) {
        admitted(tc, &calls[i]);
        looked(tc);
        stepped(tc, dc, &calls[0]);
        looked(tc);
    }
    for (int turn = 0; turn < 8 * CALLS; turn++) {
        stepped(tc, dc, &calls[turn % CALLS]);
        looked(tc);
    }
    SEEN(mz_open_count(tc) == 0);
    printf("looks: %s\n", failures ? "NOT as they have to be" : "who is open, on what, with which locks");
    mz_dc_free(dc);
    mz_tc_free(tc);
    return failures != 0;
}
