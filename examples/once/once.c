/* Payments that are made once, however often a client calls. Table 0 has an account's amount. Table 1 has, by a number that
 * the client chose, what was paid: from, to, and the amount. */
#include "../../c_interface/mazzulpe_procedure.h"

enum { PAID, FROM, TO };
enum { UNKNOWN = 1, TOO_LITTLE = 2, SAME = 3, OTHERWISE = 4 };

/* deposit ACCOUNT AMOUNT */
ACCESSES(deposit, TAKES(2), WRITES(0, 0, ARGUMENT(0)))
PROCEDURE_OF(deposit, account, amount) {
    u64 *account = record_buffer(0);
    account[0] = args->amount;
    return record_insert(0);
}

/* pay NUMBER FROM TO AMOUNT: where the same was paid under NUMBER before, it ends with 0 and moves nothing. */
ACCESSES(pay, TAKES(4), WRITES(0, 1, ARGUMENT(0)), WRITES(0, 0, ARGUMENT(1)), WRITES(0, 0, ARGUMENT(2)))
PROCEDURE_OF(pay, number, from, to, amount) {
    u64 from = args->from, to = args->to, amount = args->amount;
    u64 *paid = record_read(PAID);
    if (paid)
        return paid[0] == from && paid[1] == to && paid[2] == amount ? 0 : OTHERWISE;
    if (from == to)
        return SAME;
    u64 *payer = record_read(FROM);
    if (!payer)
        return UNKNOWN;
    if (payer[0] < amount)
        return TOO_LITTLE;
    payer[0] -= amount;
    record_update(FROM);

    u64 *payee = record_read(TO);
    if (!payee)
        return UNKNOWN;
    payee[0] += amount;
    record_update(TO);

    paid = record_buffer(PAID);
    paid[0] = from;
    paid[1] = to;
    paid[2] = amount;
    return record_insert(PAID);
}
