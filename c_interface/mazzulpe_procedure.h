/* mazzulpe_procedure.h: for procedures in C that are compiled for BPF, and loaded by procd or mz_load_object.
 *
 *     #include "mazzulpe_procedure.h"
 *
 *     ACCESSES(move, TAKES(3), WRITES(0, 0, ARGUMENT(0)), WRITES(0, 0, ARGUMENT(1)))
 *     PROCEDURE(move) { .. return 0; }
 *
 *     clang -target bpf -O2 -mcpu=v2 -g -c bank.c -o bank.o
 *
 * docs/PROCEDURES.md says what a procedure may do, and what the verifier refuses. */
#ifndef MAZZULPE_PROCEDURE_H
#define MAZZULPE_PROCEDURE_H

typedef unsigned long long u64;

/* A procedure: a function of its arguments, eight bytes each. It answers 0 to commit, and anything else to abort,
 * which undoes what it wrote. It stands in a section of its own, from which its code is taken. */
#define PROCEDURE(name) __attribute__((section("procedure/" #name))) u64 name(const u64 *args)

/* The same with names for its arguments, 1 at least: PROCEDURE_OF(move, from, to, amount) reads args->from. Compiled with -g, the
 * calls that mz_skeleton makes have these names too. */
#define PROCEDURE_OF(name, ...) \
    struct arguments_##name { u64 __VA_ARGS__; }; \
    __attribute__((section("procedure/" #name))) u64 name(const struct arguments_##name *args)

/* The access slots of a procedure, in the order of their numbers, behind how many arguments it takes (at
 * most 8). READS is a slot for reading alone, WRITES one for both: data component, table, and KEY(k) or
 * ARGUMENT(i). At most 16. */
#define ACCESSES(name, ...) \
    __attribute__((section("accesses/" #name), used)) static const struct mazzulpe_access accesses_##name[] = {__VA_ARGS__};
#define TAKES(count) {0, 0, 4, 0, count}
#define READS(dc, table, ...) {dc, table, 0 + __VA_ARGS__}
#define WRITES(dc, table, ...) {dc, table, 1 + __VA_ARGS__}
#define KEY(k) 0, 0, k
#define ARGUMENT(i) 2, 0, i

/* An entry of a section of accesses: 16 bytes. */
struct mazzulpe_access { unsigned short dc, table, flags, spare; u64 key; };

/* What a procedure may call. `slot` is the number of an access slot, from 0, and has to be a constant; each slot has a
 * buffer of 64 bytes. After each call comes an empty instruction that differs by the slot: else a compiler makes one call
 * of two that are the last of two branches, and its slot is no constant. */
#define MAZZULPE_CALLED(answers, helper, slot) \
    __extension__({ \
        answers mazzulpe_answer = ((answers (*)(u64))helper)(slot); \
        __asm__ volatile("" : : "i"(slot)); \
        mazzulpe_answer; \
    })

/* Reads the slot's record into its buffer: the buffer's address, or 0 if there is no such record. */
#define record_read(slot) MAZZULPE_CALLED(u64 *, 1, slot)
/* Inserts the buffer as the record: 0, or 1 if there is one already. */
#define record_insert(slot) MAZZULPE_CALLED(u64, 2, slot)
/* Writes the buffer over the record: 0, or 1 if there is none. */
#define record_update(slot) MAZZULPE_CALLED(u64, 3, slot)
/* Deletes the record: 0, or 1 if there is none. */
#define record_delete(slot) MAZZULPE_CALLED(u64, 4, slot)
/* The buffer's address; nothing is sent. */
#define record_buffer(slot) MAZZULPE_CALLED(u64 *, 5, slot)

#endif
