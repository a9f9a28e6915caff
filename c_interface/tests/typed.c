/* Calls by the headers that mz_skeleton makes: what they log is what calls by name and number log, with each argument in its place;
 * and what their access slots hold by name is what they hold by number. The same of calls by a pool. */
#if !defined(__cplusplus) && !defined(_GNU_SOURCE)
#define _GNU_SOURCE
#endif
#include "mazzulpe_pool.h"
#include "bank.h"
#include "named.h"
#include "named_again.h"
#include "seen.h"

static mz_tc *typed, *by_name;
static uint64_t txn;

/* The call that was admitted last at one component, made by name at the other; both say the same then. */
static void admitted(mz_code code, const char *name, const uint64_t *args, size_t count) {
    uint64_t procedure = 0, other = 0, length = mz_log_length(typed);
    mz_event event, events;
    memset(&event, 0, sizeof event);
    memset(&events, 1, sizeof events);
    SEEN(code == MZ_OK && mz_find(by_name, name, &procedure) == MZ_OK);
    SEEN(mz_admit(by_name, procedure, args, count, &other, NULL, NULL) == MZ_OK && other == txn && mz_log_length(by_name) == length);
    SEEN(mz_log_at(typed, length - 1, &event) == MZ_OK && mz_log_at(by_name, length - 1, &events) == MZ_OK);
    SEEN(event.procedure == procedure && event.count == count && !memcmp(&event, &events, sizeof event));
}

/* What stands in the way of a call is told as mz_admit tells it, and whether waiting is in vain as mz_blocked does. */
static void in_the_way(void) {
    mz_record record = {9, 9, 9};
    mz_asked asked;
    uint64_t holder = 0, other = 0;
    int blocked = 1;
    SEEN(named_put(typed, 7, 1, &txn, NULL, NULL) == MZ_OK && named_put(typed, 7, 2, &other, &record, &holder) == MZ_BUSY);
    SEEN(holder == txn && record.dc == 1 && record.table == 5 && record.key == 7);
    SEEN(named_put_blocked(typed, 7, 2, &blocked) == MZ_OK && !blocked);
    SEEN(mz_ask(typed, txn, &asked) == MZ_OK && mz_give_up(typed, txn, NULL) == MZ_OK);
    SEEN(named_put_blocked(typed, 7, 2, &blocked) == MZ_OK && blocked);
    SEEN(named_put_blocked(typed, 8, 2, &blocked) == MZ_OK && !blocked);
    SEEN(named_put(typed, 8, 2, NULL, NULL, NULL) == MZ_BAD_ARGUMENT && named_put(NULL, 8, 2, &txn, NULL, NULL) == MZ_BAD_ARGUMENT);
}

static mz_carried carry(void *dcs, const mz_wire *wire, mz_reply *reply, mz_news *news) {
    (void)news;
    return mz_dc_perform(((mz_dc **)dcs)[wire->record.dc], wire, reply) == MZ_OK ? MZ_REPLIED : MZ_LOST;
}

typedef mz_code read_slot(mz_tc *tc, uint64_t txn, uint8_t value[MZ_VALUE], int *there);

/* Whether a slot by its name holds what the slot of this number does: so much, in a record that is there or isn't. */
static void holds(read_slot *named, uint64_t slot, uint64_t amount, int is_there) {
    uint8_t value[MZ_VALUE], same[MZ_VALUE];
    int there = 7, same_there = 8;
    memset(value, 7, sizeof value);
    memset(same, 8, sizeof same);
    SEEN(named(typed, txn, value, &there) == MZ_OK && mz_result(typed, txn, slot, same, &same_there) == MZ_OK);
    SEEN(!memcmp(value, same, MZ_VALUE) && there == same_there && mz_little(value, 8) == amount && there == is_there);
}

/* Runs the call that was admitted last up to its end. */
static void over(mz_dc **dcs, mz_code admitted) {
    mz_next stopped = MZ_STUCK;
    SEEN(admitted == MZ_OK && mz_run_until_over(typed, txn, carry, dcs, 1, &stopped) == MZ_OK && stopped == MZ_OVER);
}

static void ended(mz_outcome outcome) {
    mz_receipt receipt;
    memset(&receipt, 0, sizeof receipt);
    SEEN(mz_end(typed, txn, &receipt) == MZ_OK && receipt.outcome == outcome);
}

/* Both balances behind a transfer, and one of an account that isn't there. */
static void by_slot_name(mz_dc **dcs) {
    uint8_t value[MZ_VALUE] = {0};
    int there = 7;
    over(dcs, bank_deposit_here(typed, 101, 100, &txn, NULL, NULL));
    holds(bank_deposit_here_account, 0, 100, 1);
    ended(MZ_COMMITTED);
    over(dcs, bank_deposit_there(typed, 102, 7, &txn, NULL, NULL));
    ended(MZ_COMMITTED);
    SEEN(bank_move(typed, 101, 102, 30, &txn, NULL, NULL) == MZ_OK && bank_move_from(typed, txn, value, &there) == MZ_NOT_OVER);
    over(dcs, MZ_OK);
    holds(bank_move_from, 0, 70, 1);
    holds(bank_move_to, 1, 37, 1);
    ended(MZ_COMMITTED);
    SEEN(bank_move_from(typed, txn, value, &there) == MZ_NO_TXN && bank_move_from(NULL, txn, value, &there) == MZ_BAD_ARGUMENT);
    over(dcs, bank_balances(typed, 101, 102, &txn, NULL, NULL));
    holds(bank_balances_here, 0, 70, 1);
    holds(bank_balances_there, 1, 37, 1);
    ended(MZ_COMMITTED);
    over(dcs, bank_balances(typed, 101, 103, &txn, NULL, NULL));
    holds(bank_balances_there, 1, 0, 0);
    ended(MZ_ABORTED);
}

/* Each slot of a procedure, which hold different numbers. */
static void many_slots(mz_dc **dcs) {
    over(dcs, named_many(typed, 7, 8, &txn, NULL, NULL));
    holds(named_many_key_1, 0, 1, 1);
    holds(named_many_key_0_2, 1, 2, 1);
    holds(named_many_key_1_2, 2, 3, 1);
    holds(named_many_key_1_3_3, 3, 5, 1);
    holds(named_many_key_1_3_4, 4, 50, 1);
    holds(named_many_slot5_1, 5, 6, 1);
    holds(named_many_slot5_2, 6, 7, 1);
    ended(MZ_COMMITTED);
}

static void carry_one(void *dcs, const mz_wire *wires, size_t count, mz_carried *carried, mz_reply *replies, mz_news *news) {
    const mz_one_carry one = {carry, dcs};
    mz_carry_each((void *)(uintptr_t)&one, wires, count, carried, replies, news);
}

/* What was admitted last, by a pool, with each argument in its place. */
static void was_admitted(mz_pool *pool, const char *name, const uint64_t *args, size_t count) {
    uint64_t procedure = 0;
    mz_event event, last;
    memset(&last, 0, sizeof last);
    mz_pool_lock(pool);
    SEEN(mz_find(typed, name, &procedure) == MZ_OK);
    for (uint64_t place = 0; mz_log_at(typed, place, &event) == MZ_OK; place++)
        if (event.kind == MZ_EVENT_ADMIT) last = event;
    mz_pool_unlock(pool);
    SEEN(last.procedure == procedure && last.count == count && (!count || !memcmp(last.args, args, count * sizeof *args)));
}

static int holds_so(const mz_slot_value *slot, uint64_t amount, int there) { return mz_little(slot->value, 8) == amount && slot->there == there; }

/* By a pool: each argument and each slot in its place. */
static void by_pool(mz_dc **dcs) {
    static const uint64_t args[] = {21, 22, 13, 14, 15, 16, 17, 18};
    mz_pool *pool;
    mz_receipt receipt;
    bank_move_held moved;
    named_many_held many;
    SEEN(mz_pool_open(typed, NULL, carry_one, dcs, 4, NULL, &pool) == MZ_OK);
    SEEN(bank_deposit_here_call(pool, 21, 100, NULL, &receipt) == MZ_OK && receipt.outcome == MZ_COMMITTED);
    SEEN(bank_deposit_there_call(pool, 22, 7, NULL, &receipt) == MZ_OK && receipt.outcome == MZ_COMMITTED);
    SEEN(bank_move_call(pool, 21, 22, 13, &moved, &receipt) == MZ_OK && holds_so(&moved.from, 87, 1) && holds_so(&moved.to, 20, 1));
    was_admitted(pool, "move", args, 3);
    SEEN(named_mixed_call(pool, 21, 22, 13, 14, 15, 16, 17, 18, NULL, &receipt) == MZ_OK);
    was_admitted(pool, "mixed", args, 8);
    SEEN(named_nothing_call(pool, &receipt) == MZ_OK && named_half_call(pool, 21, 22, 13, 14, &receipt) == MZ_OK);
    was_admitted(pool, "half", args, 4);
    SEEN(named_many_call(pool, 21, 22, &many, &receipt) == MZ_OK && holds_so(&many.key_1, 1, 1) && holds_so(&many.key_0_2, 2, 1));
    SEEN(holds_so(&many.key_1_2, 3, 1) && holds_so(&many.key_1_3_3, 5, 1) && holds_so(&many.key_1_3_4, 50, 1));
    SEEN(named_pooled_call(pool, 21, 22, 13, 14, NULL, &receipt) == MZ_OK && named_pooled_call(NULL, 1, 2, 3, 4, NULL, &receipt) == MZ_BAD_ARGUMENT);
    mz_pool_close(pool, 600000);
}

int main(void) {
    static const uint64_t args[] = {11, 12, 13, 14, 15, 16, 17, 18};
    mz_code code;
    uint64_t number;
    typed = mz_tc_new(bank_dcs, &code);
    by_name = mz_tc_new(2, &code);
    mz_tc *small = mz_tc_new(named_dcs - 1, &code);
    mz_dc *dcs[2] = {mz_dc_new(10, 100, &code), mz_dc_new(10, 100, &code)};
    SEEN(bank_dcs == 2 && named_dcs == 2);
    SEEN(named_put(typed, 1, 2, &txn, NULL, NULL) == MZ_NO_PROCEDURE);
    SEEN(bank_open(typed) == MZ_OK && named_open(typed) == MZ_OK && named_open(typed) == MZ_NAME_TAKEN);
    SEEN(again_open(typed) == MZ_NAME_TAKEN && named_open(small) == MZ_DC_UNKNOWN && mz_find(small, "plain", &number) == MZ_NO_PROCEDURE);
    SEEN(mz_load_object_file(by_name, "build/bank.o", NULL, NULL) == MZ_OK);
    SEEN(mz_load_object_file(by_name, "build/named.o", NULL, NULL) == MZ_OK);
    admitted(bank_move(typed, 11, 12, 13, &txn, NULL, NULL), "move", args, 3);
    admitted(named_put(typed, 11, 12, &txn, NULL, NULL), "put", args, 2);
    admitted(named_mixed(typed, 11, 12, 13, 14, 15, 16, 17, 18, &txn, NULL, NULL), "mixed", args, 8);
    admitted(named_half(typed, 11, 12, 13, 14, &txn, NULL, NULL), "half", args, 4);
    admitted(again_plain(typed, 11, &txn, NULL, NULL), "plain", args, 1);
    admitted(named_nothing(typed, &txn, NULL, NULL), "nothing", NULL, 0);
    admitted(named_match(typed, 11, 12, 13, 14, 15, &txn, NULL, NULL), "match", args, 5);
    in_the_way();
    by_slot_name(dcs);
    many_slots(dcs);
    by_pool(dcs);
    printf("typed calls: %s\n", failures ? "NOT as calls by name" : "as calls by name, and slots by name as by number");
    for (int dc = 0; dc < 2; dc++) mz_dc_free(dcs[dc]);
    mz_tc_free(typed);
    mz_tc_free(by_name);
    mz_tc_free(small);
    return failures != 0;
}
