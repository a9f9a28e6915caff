/* skeleton.h: an object file of procedures, what is refused of it, and what both languages print of it alike. */
#ifndef MZ_SKELETON_H
#define MZ_SKELETON_H

#include "mazzulpe_object.h"

enum { REFUSED = 1, MISUSE = 2, FILE_FAULT = 3, NO_MEMORY = 4 };
enum { ARGUMENT = 64, SLOT = ARGUMENT + 32, FUNCTION = 2 * MZ_NAME + SLOT + 8, BYTES_A_LINE = 28 };

/* A procedure, and what its arguments and its access slots are called in what is printed. */
typedef struct {
    mz_object_procedure is;
    char arguments[MZ_ARGS][ARGUMENT], slots[MZ_SLOTS][SLOT];
} procedure;

/* A language: the words that are no names in it, the names that functions need themselves and no argument has, each list up to NULL;
 * and what the count of data components is called. */
typedef struct { const char *const *words, *const *own, *dcs; } language;

/* A file, and what is printed of it: the names of functions begin with `prefix`, and `dcs` data components are spoken of. */
typedef struct {
    const char *path;
    const language *in;
    char name[MZ_NAME + 1], prefix[MZ_NAME + 2];
    uint8_t *bytes;
    size_t size;
    procedure *procedures;
    size_t count;
    unsigned dcs;
} skeleton;

/* ---- what is refused */

/* Says why, of a procedure where it is one's fault; text of the file is printed without what isn't. */
static int refused(const skeleton *it, const char *name, const char *why) {
    fprintf(stderr, "mz_skeleton: %s: ", it->path);
    for (; name && *name; name++) fputc(*name >= ' ' && *name <= '~' ? *name : '?', stderr);
    fprintf(stderr, "%s%s\n", name ? " " : "", why);
    return REFUSED;
}

static int no_memory(void) {
    fprintf(stderr, "mz_skeleton: memory\n");
    return NO_MEMORY;
}

/* ---- what is printed */

/* An access slot: its number, its mode and its record. */
static void print_slot(const procedure *it, size_t i) {
    const mz_slot *slot = &it->is.slots[i];
    printf("slot %u %s %u/%u/", (unsigned)i, slot->write ? "writes" : "reads", slot->dc, slot->table);
    if (slot->by_argument) printf("%s", it->arguments[slot->key]);
    else printf("%llu", (unsigned long long)slot->key);
}

/* The names of the arguments. */
static void print_arguments(const procedure *it) {
    for (unsigned i = 0; i < it->is.args; i++) printf("%s%s", i ? ", " : "", it->arguments[i]);
}

/* The file's bytes, as entries of an array. */
static void print_bytes(const skeleton *it) {
    for (size_t i = 0; i < it->size; i++) printf("%s%u,", i % BYTES_A_LINE ? "" : "\n        ", it->bytes[i]);
}

#endif
