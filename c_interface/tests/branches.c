/* Procedures whose branches end in the same call of two slots, which compilers like to make one of. */
#include "mazzulpe_procedure.h"

ACCESSES(put, TAKES(3), WRITES(0, 0, ARGUMENT(0)), WRITES(0, 0, ARGUMENT(1)))
PROCEDURE(put) {
    if (args[2]) {
        record_buffer(0)[0] = args[2];
        return record_insert(0);
    }
    record_buffer(1)[0] = 7;
    return record_insert(1);
}

ACCESSES(drop, TAKES(3), WRITES(0, 0, ARGUMENT(0)), WRITES(0, 0, ARGUMENT(1)), WRITES(0, 0, ARGUMENT(2)))
PROCEDURE(drop) {
    if (args[0] > args[1]) return record_delete(0);
    if (args[0] < args[1]) return record_delete(1);
    return record_delete(2);
}

ACCESSES(raise, TAKES(3), WRITES(0, 0, ARGUMENT(0)), WRITES(0, 0, ARGUMENT(1)))
PROCEDURE(raise) {
    if (args[2]) {
        u64 *account = record_read(0);
        if (!account) return 1;
        account[0]++;
        return record_update(0);
    }
    u64 *account = record_read(1);
    if (!account) return 1;
    account[0]++;
    return record_update(1);
}

/* Slots by a loop that is unrolled, and by a function that is inlined. */
static inline __attribute__((always_inline)) u64 held(u64 slot) {
    u64 *account = record_read(slot);
    return account ? account[0] : 0;
}

ACCESSES(sum, TAKES(3), READS(0, 0, ARGUMENT(0)), READS(0, 0, ARGUMENT(1)), READS(0, 0, ARGUMENT(2)))
PROCEDURE(sum) {
    u64 all = 0;
#pragma unroll
    for (int i = 0; i < 3; i++) all += held(i);
    return all;
}

#ifdef CONTROL
/* The call alone: what has to be refused. */
static u64 (*insert)(u64 slot) = (void *)2;

ACCESSES(merged, TAKES(3), WRITES(0, 0, ARGUMENT(0)), WRITES(0, 0, ARGUMENT(1)))
PROCEDURE(merged) {
    if (args[2]) {
        record_buffer(0)[0] = args[2];
        return insert(0);
    }
    record_buffer(1)[0] = 7;
    return insert(1);
}
#endif
