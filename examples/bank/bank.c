/* Accounts: a record of table 0 has the balance in its first eight bytes. */
#include "../../c_interface/mazzulpe_procedure.h"

enum { UNKNOWN_ACCOUNT = 1, TOO_LITTLE = 2, SAME_ACCOUNT = 3 };

/* deposit ACCOUNT AMOUNT: opens the account where there is none. */
ACCESSES(deposit, TAKES(2), WRITES(0, 0, ARGUMENT(0)))
PROCEDURE(deposit) {
    u64 *account = record_read(0);
    if (account) {
        account[0] += args[1];
        return record_update(0);
    }
    account = record_buffer(0);
    account[0] = args[1];
    return record_insert(0);
}

/* move FROM TO AMOUNT: aborts with 1 where an account is unknown, with 2 where the balance is too small, with 3
 * where both are one account: its two buffers would each hold the balance of before, and the second would stay. */
ACCESSES(move, TAKES(3), WRITES(0, 0, ARGUMENT(0)), WRITES(0, 0, ARGUMENT(1)))
PROCEDURE(move) {
    u64 amount = args[2];
    if (args[0] == args[1])
        return SAME_ACCOUNT;
    u64 *from = record_read(0);
    if (!from)
        return UNKNOWN_ACCOUNT;
    u64 *to = record_read(1);
    if (!to)
        return UNKNOWN_ACCOUNT;
    if (from[0] < amount)
        return TOO_LITTLE;
    from[0] -= amount;
    to[0] += amount;
    record_update(0);
    return record_update(1);
}

/* balance ACCOUNT: only reads, and commits; `run --results` prints the record. */
ACCESSES(balance, TAKES(1), READS(0, 0, ARGUMENT(0)))
PROCEDURE(balance) {
    return record_read(0) ? 0 : UNKNOWN_ACCOUNT;
}
