/* Counters: one record each. */
#include "../../c_interface/mazzulpe_procedure.h"

/* create COUNTER */
ACCESSES(create, TAKES(1), WRITES(0, 0, ARGUMENT(0)))
PROCEDURE(create) {
    return record_insert(0);
}

/* add COUNTER AMOUNT: aborts with 1 where there is no such counter. */
ACCESSES(add, TAKES(2), WRITES(0, 0, ARGUMENT(0)))
PROCEDURE(add) {
    u64 *counter = record_read(0);
    if (!counter)
        return 1;
    counter[0] += args[1];
    return record_update(0);
}

/* drop COUNTER */
ACCESSES(drop, TAKES(1), WRITES(0, 0, ARGUMENT(0)))
PROCEDURE(drop) {
    return record_delete(0);
}
