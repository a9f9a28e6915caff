/* print_c.h: the header for C and C++. */
#ifndef MZ_SKELETON_PRINT_C_H
#define MZ_SKELETON_PRINT_C_H

#include "called.h"

/* The beginning of a function: its name, and its parameters up to the procedure's arguments. */
static void print_c_head(const skeleton *of, const procedure *it, unsigned what) {
    printf("static inline mz_code ");
    print_function_name(of, it, what);
    printf(what == POOLED ? "(mz_pool *pool" : "(mz_tc *tc");
    for (unsigned i = 0; i < it->is.args && what >= CALL; i++) printf(", uint64_t %s", it->arguments[i]);
}

static void print_c_args(const procedure *it) {
    printf("    const uint64_t %s", it->is.args ? "args[] = {" : "*args = NULL");
    print_arguments(it);
    printf("%s;\n", it->is.args ? "}" : "");
}

/* The beginning of a function's body: its arguments and the procedure's number. */
static void print_c_found(const procedure *it) {
    print_c_args(it);
    printf("    uint64_t procedure = 0;\n");
    printf("    mz_code code = mz_find(tc, \"%s\", &procedure);\n", it->is.name);
}

static void print_c_calls(const skeleton *of, const procedure *it) {
    printf("/* Admits a call of %s, as mz_admit does.", it->is.name);
    for (size_t i = 0; i < it->is.count; i++) {
        printf("\n *   ");
        print_slot(it, i);
    }
    printf(" */\n");
    print_c_head(of, it, CALL);
    printf(",\n        uint64_t *txn, mz_record *record, uint64_t *holder) {\n");
    print_c_found(it);
    printf("    return code == MZ_OK ? mz_admit(tc, procedure, args, %u, txn, record, holder) : code;\n}\n\n", it->is.args);
    printf("/* As mz_blocked of it. */\n");
    print_c_head(of, it, BLOCKED);
    printf(", int *blocked) {\n");
    print_c_found(it);
    printf("    return code == MZ_OK ? mz_blocked(tc, procedure, args, %u, blocked) : code;\n}\n\n", it->is.args);
}

static void print_c_results(const skeleton *of, const procedure *it) {
    for (unsigned i = 0; i < it->is.count; i++) {
        printf("/* As mz_result of a call of %s: ", it->is.name);
        print_slot(it, i);
        printf(". */\n");
        print_c_head(of, it, i);
        printf(", uint64_t txn, uint8_t value[MZ_VALUE], int *there) {\n    return mz_result(tc, txn, %u, value, there);\n}\n\n", i);
    }
}

/* The type of what its access slots held. */
static void print_c_held(const skeleton *of, const procedure *it) {
    printf("typedef struct { mz_slot_value ");
    for (unsigned i = 0; i < it->is.count; i++) printf("%s%s", i ? ", " : "", it->slots[i]);
    printf("; } ");
    print_function_name(of, it, HELD);
    printf(";\n");
}

/* Its call by a pool. */
static void print_c_pooled(const skeleton *of, const procedure *it) {
    unsigned slots = (unsigned)it->is.count;
    printf("/* Makes a call of %s, as mz_pool_call does.%s */\n", it->is.name,
           slots ? " *held is what its access slots held at its end; it may be NULL." : "");
    if (slots) print_c_held(of, it);
    print_c_head(of, it, POOLED);
    if (slots) printf(",\n        ");
    if (slots) print_function_name(of, it, HELD);
    printf("%s, mz_receipt *receipt) {\n", slots ? " *held" : "");
    print_c_args(it);
    if (!slots) {
        printf("    return mz_pool_call(pool, \"%s\", args, %u, NULL, 0, receipt);\n}\n\n", it->is.name, it->is.args);
        return;
    }
    printf("    mz_slot_value values[%u];\n", slots);
    printf("    mz_code code = mz_pool_call(pool, \"%s\", args, %u, values, held ? %u : 0, receipt);\n", it->is.name, it->is.args, slots);
    printf("    if (code != MZ_OK || !held) return code;\n");
    for (unsigned i = 0; i < slots; i++) printf("    held->%s = values[%u];\n", it->slots[i], i);
    printf("    return code;\n}\n\n");
}

static void print_c_open(const skeleton *it) {
    printf("/* Loads the procedures, all or none, as mz_load_object does. MZ_DC_UNKNOWN: there are fewer data components than\n"
           " * %s_dcs; MZ_NAME_TAKEN: a procedure of such a name is loaded already. */\n", it->name);
    printf("static inline mz_code %s_open(mz_tc *tc) {\n    static const uint8_t object[] = {", it->name);
    print_bytes(it);
    printf("\n    };\n    return mz_load_object(tc, object, sizeof object, NULL, NULL);\n}\n\n");
}

static void print_c(const skeleton *it) {
    printf("/* Typed calls of procedures, made by mz_skeleton %s from an object file. Make it again instead of changing it. */\n"
           "#ifndef %s_SKELETON_H\n#define %s_SKELETON_H\n\n#include <mazzulpe_object.h>\n\n"
           "#ifdef __cplusplus\nextern \"C\" {\n#endif\n\n"
           "/* How many data components they speak of. */\nenum { %s_dcs = %u };\n\n", MZ_RELEASE, it->name, it->name, it->name, it->dcs);
    print_c_open(it);
    for (size_t i = 0; i < it->count; i++) {
        print_c_calls(it, &it->procedures[i]);
        print_c_results(it, &it->procedures[i]);
    }
    printf("/* ---- calls by a pool, where mazzulpe_pool.h is included before */\n\n#ifdef MAZZULPE_POOL_H\n\n");
    for (size_t i = 0; i < it->count; i++) print_c_pooled(it, &it->procedures[i]);
    printf("#endif\n\n#ifdef __cplusplus\n}\n#endif\n#endif\n");
}

#endif
