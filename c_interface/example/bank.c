/* Accounts at two data components: a record of table 0 has the balance in its first eight bytes. */
#include "mazzulpe_procedure.h"

enum { UNKNOWN_ACCOUNT = 1, TOO_LITTLE = 2, LEFT_AGAIN = 7 };

static inline __attribute__((always_inline)) u64 deposited(u64 amount) {
    u64 *account = record_read(0);
    if (account) {
        account[0] += amount;
        return record_update(0);
    }
    account = record_buffer(0);
    account[0] = amount;
    return record_insert(0);
}

/* deposit_here ACCOUNT AMOUNT: opens the account at data component 0 where there is none. */
ACCESSES(deposit_here, TAKES(2), WRITES(0, 0, ARGUMENT(0)))
PROCEDURE_OF(deposit_here, account, amount) {
    return deposited(args->amount);
}

/* deposit_there ACCOUNT AMOUNT: the same at data component 1. */
ACCESSES(deposit_there, TAKES(2), WRITES(1, 0, ARGUMENT(0)))
PROCEDURE_OF(deposit_there, account, amount) {
    return deposited(args->amount);
}

static inline __attribute__((always_inline)) u64 moved(u64 amount) {
    u64 *from = record_read(0);
    if (!from)
        return UNKNOWN_ACCOUNT;
    u64 *to = record_read(1);
    if (!to)
        return UNKNOWN_ACCOUNT;
    if (from[0] < amount)
        return TOO_LITTLE;
    from[0] -= amount;
    to[0] += amount;
    record_update(0);
    return record_update(1);
}

/* move FROM TO AMOUNT: from an account at data component 0 to one at data component 1. */
ACCESSES(move, TAKES(3), WRITES(0, 0, ARGUMENT(0)), WRITES(1, 0, ARGUMENT(1)))
PROCEDURE_OF(move, from, to, amount) {
    return moved(args->amount);
}

/* move_back FROM TO AMOUNT: the other way. */
ACCESSES(move_back, TAKES(3), WRITES(1, 0, ARGUMENT(0)), WRITES(0, 0, ARGUMENT(1)))
PROCEDURE_OF(move_back, from, to, amount) {
    return moved(args->amount);
}

/* touch ACCOUNT: adds 1, and then aborts, so that the addition is undone by the former value. */
ACCESSES(touch, TAKES(1), WRITES(0, 0, ARGUMENT(0)))
PROCEDURE_OF(touch, account) {
    u64 *account = record_read(0);
    if (!account)
        return UNKNOWN_ACCOUNT;
    account[0] += 1;
    record_update(0);
    return LEFT_AGAIN;
}

/* move_here FROM TO AMOUNT: between two accounts at data component 0, of which the second may be opened by it. */
ACCESSES(move_here, TAKES(3), WRITES(0, 0, ARGUMENT(0)), WRITES(0, 0, ARGUMENT(1)))
PROCEDURE_OF(move_here, from, to, amount) {
    u64 *from = record_read(0);
    if (!from)
        return UNKNOWN_ACCOUNT;
    if (from[0] < args->amount)
        return TOO_LITTLE;
    from[0] -= args->amount;
    record_update(0);
    u64 *to = record_read(1);
    if (to) {
        to[0] += args->amount;
        return record_update(1);
    }
    to = record_buffer(1);
    to[0] = args->amount;
    return record_insert(1);
}

/* balances HERE THERE: reads an account at each data component, as they stand together, and commits: mz_result has both records. */
ACCESSES(balances, TAKES(2), READS(0, 0, ARGUMENT(0)), READS(1, 0, ARGUMENT(1)))
PROCEDURE_OF(balances, here, there) {
    return record_read(0) && record_read(1) ? 0 : UNKNOWN_ACCOUNT;
}
