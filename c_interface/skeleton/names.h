/* names.h: how the arguments of a procedure are called, from what clang -g leaves of types in the section .BTF of an object
 * file (the Linux kernel's Documentation/bpf/btf.rst). A procedure is a function of one pointer. Where that is to a
 * structure, as PROCEDURE_OF declares one, the member that begins at byte 8 i is argument i.
 *
 * Whatever bytes the section has: nothing outside of it is read, and what they don't say has no name. */
#ifndef MZ_SKELETON_NAMES_H
#define MZ_SKELETON_NAMES_H

#include "mazzulpe_object.h"

enum {
    BTF_INT = 1, BTF_PTR, BTF_ARRAY, BTF_STRUCT, BTF_UNION, BTF_ENUM, BTF_FWD, BTF_TYPEDEF, BTF_VOLATILE, BTF_CONST, BTF_RESTRICT,
    BTF_FUNC, BTF_FUNC_PROTO, BTF_VAR, BTF_DATASEC, BTF_FLOAT, BTF_DECL_TAG, BTF_TYPE_TAG, BTF_ENUM64, BTF_KINDS
};
enum { BTF_HEADER = 24, BTF_RECORD = 12, BTF_MEMBER = 12, BTF_MOST_STEPS = 16 };

typedef struct { const uint8_t *types, *texts; uint64_t types_size, texts_size; } btf;

/* A type's record: its name, and its size or the type that it is of; behind it so many entries. */
typedef struct { const uint8_t *at; unsigned kind; int bits; uint64_t count; } btf_type;

static inline int btf_open(btf *b, const mz_section *section) {
    if (section->size < BTF_HEADER || mz_little(section->bytes, 2) != 0xeb9f) return 0;
    uint64_t behind = mz_little(section->bytes + 4, 4), types = mz_little(section->bytes + 8, 4);
    uint64_t texts = mz_little(section->bytes + 16, 4);
    b->types_size = mz_little(section->bytes + 12, 4);
    b->texts_size = mz_little(section->bytes + 20, 4);
    if (behind + types + b->types_size > section->size || behind + texts + b->texts_size > section->size) return 0;
    b->types = section->bytes + behind + types;
    b->texts = section->bytes + behind + texts;
    return 1;
}

/* The name that begins here, or NULL where none does. */
static inline const char *btf_text(const btf *b, uint64_t place) {
    if (place >= b->texts_size || !memchr(b->texts + place, 0, (size_t)(b->texts_size - place))) return NULL;
    return b->texts[place] ? (const char *)b->texts + place : NULL;
}

/* The type whose record begins here, and where the next one does. */
static inline int btf_next(const btf *b, uint64_t *place, btf_type *type) {
    static const uint8_t behind[BTF_KINDS] = {
        [BTF_INT] = 4, [BTF_ARRAY] = 12, [BTF_VAR] = 4, [BTF_DECL_TAG] = 4};
    static const uint8_t entry[BTF_KINDS] = {
        [BTF_STRUCT] = 12, [BTF_UNION] = 12, [BTF_ENUM] = 8, [BTF_FUNC_PROTO] = 8, [BTF_DATASEC] = 12, [BTF_ENUM64] = 12};
    if (b->types_size < BTF_RECORD || *place > b->types_size - BTF_RECORD) return 0;
    type->at = b->types + *place;
    uint64_t info = mz_little(type->at + 4, 4);
    type->kind = (unsigned)(info >> 24 & 31);
    type->bits = (int)(info >> 31);
    type->count = info & 0xffff;
    if (type->kind == 0 || type->kind >= BTF_KINDS) return 0;
    *place += BTF_RECORD + behind[type->kind] + entry[type->kind] * type->count;
    return *place <= b->types_size;
}

/* The type of this number, which count from 1, behind all names and qualifiers of it. */
static inline int btf_type_of(const btf *b, uint64_t number, btf_type *type) {
    for (int steps = 0; steps < BTF_MOST_STEPS && number; steps++) {
        uint64_t place = 0, i = 0;
        while (i < number && btf_next(b, &place, type)) i++;
        if (i < number) return 0;
        switch (type->kind) {
        case BTF_TYPEDEF: case BTF_VOLATILE: case BTF_CONST: case BTF_RESTRICT: case BTF_TYPE_TAG:
            number = mz_little(type->at + 8, 4);
            break;
        default: return 1;
        }
    }
    return 0;
}

/* The structure to which the one argument of this function points. */
static inline int btf_arguments(const btf *b, const char *function, btf_type *type) {
    const char *name;
    uint64_t place = 0;
    while (btf_next(b, &place, type)) {
        if (type->kind != BTF_FUNC || !(name = btf_text(b, mz_little(type->at, 4))) || strcmp(name, function)) continue;
        if (!btf_type_of(b, mz_little(type->at + 8, 4), type) || type->kind != BTF_FUNC_PROTO || type->count != 1) return 0;
        if (!btf_type_of(b, mz_little(type->at + BTF_RECORD + 4, 4), type) || type->kind != BTF_PTR) return 0;
        return btf_type_of(b, mz_little(type->at + 8, 4), type) && type->kind == BTF_STRUCT && !type->bits;
    }
    return 0;
}

/* The names of the arguments of this function; NULL of one that has none. */
static inline void btf_names(const mz_section *section, const char *function, const char *names[MZ_ARGS]) {
    btf b;
    btf_type structure, type;
    for (int i = 0; i < MZ_ARGS; i++) names[i] = NULL;
    if (!btf_open(&b, section) || !btf_arguments(&b, function, &structure)) return;
    for (uint64_t m = 0; m < structure.count; m++) {
        const uint8_t *member = structure.at + BTF_RECORD + m * BTF_MEMBER;
        uint64_t bit = mz_little(member + 8, 4);
        if (bit % 64 || bit / 64 >= MZ_ARGS || !btf_type_of(&b, mz_little(member + 4, 4), &type)) continue;
        if (type.kind == BTF_INT && mz_little(type.at + 8, 4) == 8) names[bit / 64] = btf_text(&b, mz_little(member, 4));
    }
}

#endif
