/* print_rust.h: the module for Rust, over mazzulpe.rs. */
#ifndef MZ_SKELETON_PRINT_RUST_H
#define MZ_SKELETON_PRINT_RUST_H

#include "called.h"

/* The beginning of a function: its name, and its parameters up to the procedure's arguments. */
static void print_rust_head(const skeleton *of, const procedure *it, unsigned what) {
    printf("pub fn ");
    print_function_name(of, it, what);
    printf(what == POOLED ? "<D: Device + Send + Sync + 'static>(pool: &Pool<D>" : "(tc: &mut Tc");
    for (unsigned i = 0; i < it->is.args && what >= CALL; i++) printf(", %s: u64", it->arguments[i]);
}

static void print_rust_calls(const skeleton *of, const procedure *it) {
    printf("\n/// Admits a call of `%s`, as [`Tc::admit`] does: its serial number.\n%s", it->is.name, it->is.count ? "///\n" : "");
    for (size_t i = 0; i < it->is.count; i++) {
        printf("/// - ");
        print_slot(it, i);
        printf("\n");
    }
    print_rust_head(of, it, CALL);
    printf(") -> Result<u64, NotAdmitted> {\n    let procedure = tc.find(\"%s\").map_err(NotAdmitted::Refused)?;\n", it->is.name);
    printf("    tc.admit(procedure, &[");
    print_arguments(it);
    printf("])\n}\n\n/// As [`Tc::blocked`] of it.\n");
    print_rust_head(of, it, BLOCKED);
    printf(") -> Result<bool, Refusal> {\n    let procedure = tc.find(\"%s\")?;\n    tc.blocked(procedure, &[", it->is.name);
    print_arguments(it);
    printf("])\n}\n");
}

static void print_rust_pooled(const skeleton *of, const procedure *it) {
    printf("\n/// Makes a call of `%s` as [`Pool::call`] does, with what its access slots held, in order.\n", it->is.name);
    print_rust_head(of, it, POOLED);
    printf(") -> Result<Ended, Refusal> {\n    pool.call(\"%s\", &[", it->is.name);
    print_arguments(it);
    printf("], %u)\n}\n", (unsigned)it->is.count);
}

static void print_rust_results(const skeleton *of, const procedure *it) {
    for (unsigned i = 0; i < it->is.count; i++) {
        printf("\n/// As [`Tc::result`] of a call of `%s`: ", it->is.name);
        print_slot(it, i);
        printf(".\n");
        print_rust_head(of, it, i);
        printf(", txn: u64) -> Result<Option<Value>, Refusal> {\n    tc.result(txn, %u)\n}\n", i);
    }
}

static void print_rust_open(const skeleton *it) {
    printf("/// Loads the procedures, all or none, as [`Tc::load_object`] does. `DC_UNKNOWN`: there are fewer data components than\n"
           "/// [`DCS`]; `NAME_TAKEN`: a procedure of such a name is loaded already.\n");
    printf("pub fn open(tc: &mut Tc) -> Result<(), Unloaded> {\n    static OBJECT: [u8; %zu] = [", it->size);
    print_bytes(it);
    printf("\n    ];\n    tc.load_object(&OBJECT)\n}\n");
}

static void print_rust(const skeleton *it) {
    printf("//! Typed calls of the procedures of %s, made by mz_skeleton %s from an object file. Make it again instead of changing\n"
           "//! it. The module `mazzulpe` of mazzulpe.rs stands beside it.\n"
           "#![allow(dead_code, unused_imports, non_snake_case, clippy::all)]\n"
           "#![cfg_attr(rustfmt, rustfmt_skip)]\n\n"
           "use super::mazzulpe::log::Device;\nuse super::mazzulpe::pool::{Ended, Pool};\n"
           "use super::mazzulpe::{NotAdmitted, Refusal, Tc, Unloaded, Value};\n\n"
           "/// How many data components they speak of.\npub const DCS: u16 = %u;\n\n", it->name, MZ_RELEASE, it->dcs);
    print_rust_open(it);
    for (size_t i = 0; i < it->count; i++) {
        print_rust_calls(it, &it->procedures[i]);
        print_rust_results(it, &it->procedures[i]);
        print_rust_pooled(it, &it->procedures[i]);
    }
}

#endif
