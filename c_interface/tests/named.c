/* Procedures whose arguments have names, good ones and such as a header can't have; tests/typed.c calls them. */
#include "mazzulpe_procedure.h"

ACCESSES(put, TAKES(2), WRITES(1, 5, ARGUMENT(0)))
PROCEDURE_OF(put, item, amount) {
    record_buffer(0)[0] = args->amount;
    return record_insert(0);
}

/* Each is a word of C++, of the header, or what another one is called there. */
ACCESSES(mixed, TAKES(8), READS(0, 7, ARGUMENT(7)), WRITES(1, 5, KEY(18446744073709551615ull)))
PROCEDURE_OF(mixed, class, txn, record, record_, args, code, holder, arg0) {
    return args->class + 2 * args->txn + 3 * args->record + 4 * args->record_ + 5 * args->args + 6 * args->code + 7 * args->holder +
           8 * args->arg0;
}

/* Two of four bytes in the place of the second. */
struct half { u64 first; unsigned low, high; u64 third; };
ACCESSES(half, TAKES(4))
__attribute__((section("procedure/half"))) u64 half(const struct half *args) {
    return args->first + args->third;
}

/* Eight bytes that begin within the first argument. */
struct __attribute__((packed)) packed { unsigned low; u64 within; unsigned high; };
ACCESSES(packed, TAKES(2))
__attribute__((section("procedure/packed"))) u64 packed(const struct packed *args) {
    (void)args;
    return 0;
}

ACCESSES(plain, TAKES(1), READS(0, 7, ARGUMENT(0)))
PROCEDURE(plain) {
    return record_read(0) ? args[0] : 1;
}

ACCESSES(nothing, TAKES(0))
PROCEDURE(nothing) {
    (void)args;
    return 0;
}

/* Words of Rust, and what a pattern there would be. */
ACCESSES(match, TAKES(5), READS(0, 7, ARGUMENT(0)), READS(0, 7, ARGUMENT(1)))
PROCEDURE_OF(match, type, self, DCS, None, _) {
    return args->type + args->self + args->DCS + args->None + args->_;
}

/* What a call by a pool is called there. */
ACCESSES(pooled, TAKES(4), READS(0, 7, ARGUMENT(1)))
PROCEDURE_OF(pooled, pool, held, receipt, values) {
    return args->pool + args->held + args->receipt + args->values;
}

static inline __attribute__((always_inline)) void inserted(u64 slot) {
    record_buffer(slot)[0] = slot + 1;
    record_insert(slot);
}

/* Records of one key: in two tables, at two data components, and one of them by two slots; a fixed one, and another that is called so.
 * Each slot holds something else in the end. */
ACCESSES(many, TAKES(2), WRITES(0, 1, ARGUMENT(0)), WRITES(0, 2, ARGUMENT(0)), WRITES(1, 2, ARGUMENT(0)), READS(1, 3, ARGUMENT(0)),
         WRITES(1, 3, ARGUMENT(0)), WRITES(0, 1, KEY(9)), WRITES(0, 2, ARGUMENT(1)))
PROCEDURE_OF(many, key, slot5) {
    inserted(0);
    inserted(1);
    inserted(2);
    inserted(4);
    inserted(5);
    inserted(6);
    record_read(3);
    record_buffer(4)[0] = 50;
    return args->key == args->slot5;
}
