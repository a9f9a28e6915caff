/* A procedure that deletes record 0/0/1, and aborts: what undoes that is an insert. */
#ifndef DELETING_H
#define DELETING_H

#include "mazzulpe.h"

static inline mz_code load_deleting(mz_tc *tc, uint64_t *number) {
    static const uint8_t code[] = {0xb7, 1, 0, 0, 0, 0, 0, 0, 0x85, 0, 0, 0, 4, 0, 0, 0,  /* mov r1, 0; call 4 */
                                   0xb7, 0, 0, 0, 7, 0, 0, 0, 0x95, 0, 0, 0, 0, 0, 0, 0}; /* mov r0, 7; exit */
    static const mz_slot slot = {1, 0, 0, 0, 1};
    return mz_load(tc, "deletes", code, sizeof code, &slot, 1, 0, number, NULL);
}

#endif
