/* Tallies: counted by atomic instructions (RFC 9669, section 5.3). */
#include "../../c_interface/mazzulpe_procedure.h"

/* create TALLY */
ACCESSES(create, TAKES(1), WRITES(0, 0, ARGUMENT(0)))
PROCEDURE(create) {
    return record_insert(0);
}

/* add TALLY AMOUNT: adds to the first number of the record, and counts in the second how often. */
ACCESSES(add, TAKES(2), WRITES(0, 0, ARGUMENT(0)))
PROCEDURE(add) {
    u64 *tally = record_read(0);
    if (!tally)
        return 1;
    __sync_fetch_and_add(&tally[0], args[1]);
    __sync_fetch_and_add(&tally[1], 1);
    return record_update(0);
}

/* largest TALLY AMOUNT: keeps the greater of the record's third number and the amount. */
ACCESSES(largest, TAKES(2), WRITES(0, 0, ARGUMENT(0)))
PROCEDURE(largest) {
    u64 *tally = record_read(0);
    if (!tally)
        return 1;
    u64 old = tally[2];
    if (args[1] > old)
        __sync_val_compare_and_swap(&tally[2], old, args[1]);
    return record_update(0);
}

/* sum A B: answers A + B, added up on the stack; the record isn't touched. */
ACCESSES(sum, TAKES(2))
PROCEDURE(sum) {
    volatile u64 total = 0;
    __sync_fetch_and_add(&total, args[0]);
    __sync_fetch_and_add(&total, args[1]);
    return total;
}
