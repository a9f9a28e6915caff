/* What calls read and wrote, slot by slot, at each step of their ways: nothing before the run has ended, then the same
 * until the end; of a call that aborts as its run left it, before its write is undone and behind that. */
#include "mazzulpe_object.h"
#include "seen.h"

enum { SLOTS = 3 };

/* What a slot holds: its first eight bytes, and whether a record is there. */
typedef struct { uint64_t first; int there; } holding;

/* A call, how many operations its run makes, and what its slots hold behind them. */
typedef struct {
    const char *name;
    uint64_t args[3];
    size_t count;
    int operations;
    uint64_t slots;
    holding held[SLOTS];
    mz_outcome outcome;
} known;

static const known calls[] = {
    {"deposit_here", {1, 100}, 2, 2, 1, {{100, 1}}, MZ_COMMITTED},
    {"deposit_there", {2, 7}, 2, 2, 1, {{7, 1}}, MZ_COMMITTED},
    {"move", {1, 2, 30}, 3, 4, 2, {{70, 1}, {37, 1}}, MZ_COMMITTED},
    {"balances", {1, 2}, 2, 2, 2, {{70, 1}, {37, 1}}, MZ_COMMITTED},
    {"move", {1, 3, 30}, 3, 2, 2, {{70, 1}, {0, 0}}, MZ_ABORTED},
    {"touch", {1}, 1, 2, 1, {{71, 1}}, MZ_ABORTED},
    {"touch", {9}, 1, 1, 1, {{0, 0}}, MZ_ABORTED},
    {"move_here", {1, 5, 20}, 3, 4, 2, {{50, 1}, {20, 1}}, MZ_ENDED_NO_ROOM},
};

/* Behind so many answers to the run's operations. */
static void looked(mz_tc *tc, const known *k, uint64_t txn, int answered, int last_is_full) {
    uint8_t value[MZ_VALUE];
    int there = 7;
    uint64_t length = mz_log_length(tc);
    for (uint64_t slot = 0; slot < k->slots; slot++) {
        const holding *h = &k->held[slot];
        mz_code code = mz_result(tc, txn, slot, value, &there);
        SEEN(code == (answered < k->operations ? MZ_NOT_OVER : MZ_OK));
        if (code != MZ_OK) continue;
        SEEN(mz_little(value, 8) == h->first && there == (h->there && !(last_is_full && slot == k->slots - 1)));
        for (int i = 8; i < MZ_VALUE; i++) SEEN(value[i] == 0);
    }
    SEEN(mz_result(tc, txn, k->slots, value, &there) == MZ_NO_PLACE && mz_result(tc, txn, UINT64_MAX, value, &there) == MZ_NO_PLACE);
    SEEN(mz_result(tc, txn + 1, 0, value, &there) == MZ_NO_TXN && mz_log_length(tc) == length);
}

static void called(mz_tc *tc, mz_dc **dcs, const known *k) {
    uint64_t number = 0, txn = 0;
    uint8_t value[MZ_VALUE];
    int answered = 0, undoing = 0, full = 0, there;
    mz_asked asked;
    mz_receipt receipt;
    memset(&asked, 0, sizeof asked);
    memset(&receipt, 0, sizeof receipt);
    SEEN(mz_find(tc, k->name, &number) == MZ_OK && mz_admit(tc, number, k->args, k->count, &txn, NULL, NULL) == MZ_OK);
    looked(tc, k, txn, answered, full);
    while ((undoing ? mz_undo(tc, txn, &asked) : mz_ask(tc, txn, &asked)) == MZ_OK && asked.next != MZ_OVER) {
        mz_reply reply;
        memset(&reply, 0, sizeof reply);
        undoing = asked.next == MZ_UNDOING || (undoing && asked.next == MZ_REQUEST);
        looked(tc, k, txn, answered, full);
        if (asked.next != MZ_REQUEST) continue;
        SEEN(mz_dc_perform(dcs[asked.wire.record.dc], &asked.wire, &reply) == MZ_OK && mz_answer(tc, txn, &reply) == MZ_OK);
        answered += !undoing;
        full |= reply.said == MZ_NO_ROOM;
        looked(tc, k, txn, answered, full);
    }
    looked(tc, k, txn, answered, full);
    SEEN(answered == k->operations);
    SEEN(mz_end(tc, txn, &receipt) == MZ_OK && receipt.outcome == k->outcome);
    SEEN(mz_result(tc, txn, 0, value, &there) == MZ_NO_TXN);
}

int main(void) {
    mz_code code;
    mz_tc *tc = mz_tc_new(2, &code);
    mz_dc *dcs[2] = {mz_dc_new(1, 100, &code), mz_dc_new(10, 100, &code)};
    if (!tc || !dcs[0] || !dcs[1] || mz_load_object_file(tc, "build/bank.o", NULL, NULL) != MZ_OK) return 2;
    for (size_t i = 0; i < sizeof calls / sizeof *calls; i++) called(tc, dcs, &calls[i]);
    SEEN(mz_open_count(tc) == 0);
    printf("results: %s\n", failures ? "NOT as they have to be" : "what each slot holds, from the run's end to mz_end");
    for (int dc = 0; dc < 2; dc++) mz_dc_free(dcs[dc]);
    mz_tc_free(tc);
    return failures != 0;
}
