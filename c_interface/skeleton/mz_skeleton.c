/* mz_skeleton: typed calls of the procedures in an object file, as a header for C and C++ or as a module for Rust.
 *
 *     mz_skeleton bank.o > bank.h
 *     mz_skeleton --rust bank.o > bank.rs
 *
 * Either has the file's bytes, and functions that load its procedures, admit a call of each, and read what its access slots
 * hold: bank_open, bank_move, bank_move_from; in Rust bank::open, bank::move_, bank::move_from. bank_move_call makes a call by a
 * pool (mazzulpe_pool.h), and says what its access slots held. Names in C begin with the
 * file's, or with NAME in `mz_skeleton FILE NAME`. Arguments have the names of the structure that the procedure takes
 * (PROCEDURE_OF, compiled with -g), else arg0, arg1 and on. An access slot is called as the argument that is its record's key,
 * or slotN where that is fixed; where two of a procedure would be called so, with _TABLE behind it, else _DC_TABLE, else
 * _DC_TABLE_SLOT. Words of the language have _ behind them.
 *
 * Status 1: the file isn't an object file of procedures, or one of these is refused, as standard error says; 2: the
 * words are wrong; 3: a file can't be read or written; 4: memory. Nothing is printed then. */
#include "names.h"
#include "print_c.h"
#include "print_rust.h"

enum { MOST_BYTES = 16 << 20 };

/* Loads the procedures where all data components are, so that what stays is what a program's mz_load_object accepts. */
static int loads(const skeleton *it) {
    char name[MZ_NAME + 1], why[64];
    uint64_t place = 0;
    mz_code code;
    mz_tc *tc = mz_tc_new(UINT16_MAX, &code);
    if (tc) code = mz_load_object(tc, it->bytes, it->size, name, &place);
    mz_tc_free(tc);
    if (code == MZ_OK) return 0;
    if (code == MZ_MEMORY) return no_memory();
    if (code == MZ_BAD_OBJECT && !*name) return refused(it, NULL, "not a whole object file with procedures for BPF");
    if (code == MZ_BAD_OBJECT) return refused(it, name, "has no access slots in the file (ACCESSES)");
    if (code == MZ_NAME_TAKEN) return refused(it, name, "is there twice");
    int of_accesses = code >> 8 == 'S' || code == MZ_DC_UNKNOWN;
    snprintf(why, sizeof why, "%c%u %s %s %llu", (char)(code >> 8), (unsigned)(code & 255), mz_code_text(code),
             of_accesses ? "access slot" : "slot", (unsigned long long)place);
    return refused(it, name, why);
}

/* The file's bytes, to be freed. */
static int read_bytes(skeleton *it) {
    it->bytes = (uint8_t *)malloc(MOST_BYTES + 1);
    if (!it->bytes) return no_memory();
    FILE *file = fopen(it->path, "rb");
    if (file) it->size = fread(it->bytes, 1, MOST_BYTES + 1, file);
    int is_read = file && !ferror(file);
    if (!is_read) fprintf(stderr, "mz_skeleton: cannot read %s\n", it->path);
    if (file) fclose(file);
    if (!is_read) return FILE_FAULT;
    return it->size <= MOST_BYTES ? 0 : refused(it, NULL, "more than 16 MiB");
}

/* The file's procedures, which are to be freed. */
static int read_procedures(skeleton *it) {
    mz_object object;
    mz_section section;
    mz_object_procedure next;
    const char *names[MZ_ARGS] = {NULL};
    if (!mz_object_open(&object, it->bytes, it->size)) return refused(it, NULL, "not a whole object file with procedures for BPF");
    it->procedures = (procedure *)calloc(object.count + 1, sizeof *it->procedures);
    if (!it->procedures) return no_memory();
    int has_names = mz_object_find(&object, ".BTF", "", &section);
    for (uint64_t at = 0; mz_object_next(&object, &at, &next) == MZ_OK;) {
        procedure *made = &it->procedures[it->count++];
        made->is = next;
        if (has_names) btf_names(&section, next.name, names);
        for (unsigned i = 0; i < next.args; i++) name_argument(made, i, names[i], it->in);
        name_slots(made);
        for (size_t i = 0; i < next.count; i++)
            if (it->dcs <= next.slots[i].dc) it->dcs = next.slots[i].dc + 1u;
    }
    return 0;
}

/* What is printed is called so, or as the file up to its first dot; in C functions begin with it. */
static int take_name(skeleton *it, const char *given) {
    static const char *const of_library[] = {"mz", "mazzulpe", NULL};
    const char *slash = strrchr(it->path, '/');
    const char *from = given ? given : slash ? slash + 1 : it->path;
    size_t length = given ? strlen(given) : strcspn(from, ".");
    if (length <= MZ_NAME) memcpy(it->name, from, length);
    if (it->in == &in_c) snprintf(it->prefix, sizeof it->prefix, "%s_", it->name);
    if (length <= MZ_NAME && is_name(it->name) && !is_in(of_library, it->name)) return 0;
    fprintf(stderr, "mz_skeleton: no name in C or Rust, or the library's: `mz_skeleton FILE NAME` says another one\n");
    return MISUSE;
}

static int print(const skeleton *it) {
    if (it->in == &in_rust) print_rust(it);
    else print_c(it);
    if (fflush(stdout) == 0 && !ferror(stdout)) return 0;
    fprintf(stderr, "mz_skeleton: cannot write\n");
    return FILE_FAULT;
}

int main(int argc, char **argv) {
    if (argc == 2 && !strcmp(argv[1], "--version")) return printf("mz_skeleton %s\n", MZ_RELEASE) < 0 ? FILE_FAULT : 0;
    int is_rust = argc > 1 && !strcmp(argv[1], "--rust"), words = argc - 1 - is_rust;
    char **word = argv + 1 + is_rust;
    if (words < 1 || words > 2 || **word == '-') {
        fprintf(stderr, "usage: mz_skeleton FILE [NAME] > NAME.h\n       mz_skeleton --rust FILE [NAME] > NAME.rs\n"
                        "FILE: an object file for BPF with procedures\n");
        return MISUSE;
    }
    skeleton it = {word[0], is_rust ? &in_rust : &in_c, {0}, {0}, NULL, 0, NULL, 0, 0};
    int status = take_name(&it, words == 2 ? word[1] : NULL);
    if (status == 0) status = read_bytes(&it);
    if (status == 0) status = loads(&it);
    if (status == 0) status = read_procedures(&it);
    if (status == 0) status = are_named(&it);
    if (status == 0) status = print(&it);
    free(it.procedures);
    free(it.bytes);
    return status;
}
