/* mazzulpe_object.h: procedures straight from the object file that clang makes of C for BPF.
 *
 * A procedure NAME is the section "procedure/NAME" with its code, and "accesses/NAME" with its access slots
 * and its count of arguments, as PROCEDURE and ACCESSES of mazzulpe_procedure.h leave them. */
#ifndef MAZZULPE_OBJECT_H
#define MAZZULPE_OBJECT_H

#include "mazzulpe.h"
#include <stdio.h>

#ifdef __cplusplus
extern "C" {
#endif

/* ---- inside: the sections of an ELF64 object, little-endian */

typedef struct { const uint8_t *file; size_t size; uint64_t headers, each, count, names, names_size; } mz_object;
typedef struct { const char *name; const uint8_t *bytes; size_t size; } mz_section;

static inline int mz_object_open(mz_object *o, const void *file, size_t size) {
    const uint8_t *at = (const uint8_t *)file;
    o->file = at;
    o->size = size;
    if (size < 64 || memcmp(at, "\177ELF\2\1", 6)) return 0;
    o->headers = mz_little(at + 40, 8);
    o->each = mz_little(at + 58, 2);
    o->count = mz_little(at + 60, 2);
    uint64_t names = mz_little(at + 62, 2);
    if (o->each < 64 || names >= o->count || o->headers > size || o->count > (size - o->headers) / o->each) return 0;
    const uint8_t *header = at + o->headers + names * o->each;
    o->names = mz_little(header + 24, 8);
    o->names_size = mz_little(header + 32, 8);
    return o->names <= size && o->names_size <= size - o->names;
}

/* The section at this place, if it has a name and bytes (SHT_PROGBITS). */
static inline int mz_object_section(const mz_object *o, uint64_t place, mz_section *section) {
    const uint8_t *header = o->file + o->headers + place * o->each;
    uint64_t name = mz_little(header, 4), where = mz_little(header + 24, 8), bytes = mz_little(header + 32, 8);
    if (mz_little(header + 4, 4) != 1 || name >= o->names_size) return 0;
    if (where > o->size || bytes > o->size - where) return 0;
    const char *text = (const char *)o->file + o->names + name;
    if (!memchr(text, 0, (size_t)(o->names_size - name))) return 0;
    section->name = text;
    section->bytes = o->file + where;
    section->size = (size_t)bytes;
    return 1;
}

static inline int mz_object_find(const mz_object *o, const char *kind, const char *name, mz_section *section) {
    size_t length = strlen(kind);
    for (uint64_t i = 0; i < o->count; i++) {
        if (!mz_object_section(o, i, section) || strncmp(section->name, kind, length)) continue;
        if (!strcmp(section->name + length, name)) return 1;
    }
    return 0;
}

/* The entries of "accesses/NAME": the count of arguments first, then a slot each. 0 where they are none. */
static inline int mz_object_accesses(const mz_section *section, mz_slot *slots, size_t *count, unsigned *args) {
    if (section->size < 16 || section->size % 16 || section->size / 16 > MZ_SLOTS + 2) return 0;
    const uint8_t *at = section->bytes;
    if (mz_little(at + 4, 2) != 4 || mz_little(at + 8, 8) > 255) return 0;
    *args = (unsigned)mz_little(at + 8, 8);
    *count = section->size / 16 - 1;
    for (size_t i = 0; i < *count; i++) {
        at += 16;
        uint64_t flags = mz_little(at + 4, 2);
        if (flags > 3) return 0;
        slots[i].write = (int)(flags & 1);
        slots[i].by_argument = (int)(flags >> 1);
        slots[i].dc = (uint16_t)mz_little(at, 2);
        slots[i].table = (uint16_t)mz_little(at + 2, 2);
        slots[i].key = mz_little(at + 8, 8);
    }
    return 1;
}

/* A procedure of the file, as mz_load takes it. */
typedef struct {
    const char *name;
    mz_section code;
    mz_slot slots[MZ_SLOTS + 1];
    size_t count;
    unsigned args;
} mz_object_procedure;

/* The next procedure in the order of the file's sections, from *section on, which is then the one behind it.
 * MZ_NO_PLACE where none is left; MZ_BAD_OBJECT where its access slots aren't in the file. */
static inline mz_code mz_object_next(const mz_object *o, uint64_t *section, mz_object_procedure *it) {
    while (*section < o->count) {
        mz_section accesses;
        if (!mz_object_section(o, (*section)++, &it->code) || strncmp(it->code.name, "procedure/", 10)) continue;
        it->name = it->code.name + 10;
        if (!mz_object_find(o, "accesses/", it->name, &accesses)) return MZ_BAD_OBJECT;
        return mz_object_accesses(&accesses, it->slots, &it->count, &it->args) ? MZ_OK : MZ_BAD_OBJECT;
    }
    return MZ_NO_PLACE;
}

/* Whether an earlier section of the file has a procedure of this name too. */
static inline int mz_object_twice(const mz_object *o, const mz_object_procedure *it) {
    mz_section section;
    return mz_object_find(o, "procedure/", it->name, &section) && section.bytes != it->code.bytes;
}

/* Why mz_load would refuse this procedure, want of memory aside; `loaded`: its name is taken by itself. */
static inline mz_code mz_object_checked(mz_tc *tc, mz_program *program, const mz_object *o,
                                        const mz_object_procedure *it, int loaded, uint64_t *place) {
    uint64_t number;
    mz_code c = mz_program_verify(program, it->code.bytes, it->code.size, it->slots, it->count, it->args, place);
    if (c != MZ_OK) return c;
    c = mz_find(tc, it->name, &number);
    if (c != MZ_OK && c != MZ_NO_PROCEDURE) return c;
    if ((c == MZ_OK && !loaded) || mz_object_twice(o, it)) return MZ_NAME_TAKEN;
    for (size_t i = 0; i < it->count; i++) {
        if (mz_site(tc, it->slots[i].dc, NULL, NULL) == MZ_OK) continue;
        *place = i;
        return MZ_DC_UNKNOWN;
    }
    return MZ_OK;
}

/* A file's digest (FNV-1a), which isn't 0. */
static inline uint64_t mz_object_digest(const uint8_t *bytes, size_t size) {
    uint64_t digest = 0xcbf29ce484222325u;
    for (size_t i = 0; i < size; i++) digest = (digest ^ bytes[i]) * 0x100000001b3u;
    return digest ? digest : 1;
}

/* Checks each procedure of the file, and behind that loads each, but for the first `loaded`. */
static inline mz_code mz_object_load(mz_tc *tc, mz_program *program, const mz_object *o, uint64_t *loaded,
                                     mz_object_procedure *it, uint64_t *place) {
    uint64_t section = 0, number, at = 0;
    mz_code c;
    while ((c = mz_object_next(o, &section, it)) == MZ_OK) {
        c = mz_object_checked(tc, program, o, it, at++ < *loaded, place);
        if (c != MZ_OK) return c;
    }
    if (c != MZ_NO_PLACE) return c;
    for (section = at = 0; mz_object_next(o, &section, it) == MZ_OK; at++) {
        if (at < *loaded) continue;
        c = mz_load(tc, it->name, it->code.bytes, it->code.size, it->slots, it->count, it->args, &number, place);
        if (c != MZ_OK) return c;
        ++*loaded;
    }
    return MZ_OK;
}

/* ---- */

/* Loads each procedure of an object file that lies in memory, in the order of its sections, under their
 * names; mz_find says their numbers. Procedures whose access slots aren't in the file are refused. Code that
 * refers to variables or other functions is refused by the verifier.
 *
 * All or nothing: where one is refused none is loaded. `refused` (which may be NULL) is its name, cut at 256
 * bytes, and *place (which may be NULL) is as mz_load says. MZ_BAD_OBJECT: the file isn't whole, isn't such a
 * file, or has no access slots for this procedure; with no procedure in it nothing is loaded, and that is
 * MZ_OK. MZ_MEMORY alone may leave some loaded: call it again with the same file, and it goes on. */
static inline mz_code mz_load_object(mz_tc *tc, const void *file, size_t size, char refused[MZ_NAME + 1],
                                     uint64_t *place) {
    mz_object object;
    mz_object_procedure it;
    mz_frame *f;
    mz_code c = mz_enter(tc, MZ_KIND_TC, file != NULL, &f);
    if (refused) refused[0] = 0;
    if (place) *place = 0;
    if (c != MZ_OK) return c;
    mz_head *head = mz_head_of(f);
    mz_leave(f, MZ_OK);
    if (!mz_object_open(&object, file, size)) return MZ_BAD_OBJECT;
    mz_program *program = mz_program_new(&c);
    if (!program) return c;
    uint64_t digest = mz_object_digest(object.file, size), at = 0;
    uint64_t loaded = head->object == digest ? head->of_object : 0;
    it.name = NULL;
    c = mz_object_load(tc, program, &object, &loaded, &it, &at);
    mz_program_free(program);
    head->object = c == MZ_MEMORY ? digest : 0;
    head->of_object = c == MZ_MEMORY ? loaded : 0;
    if (c == MZ_OK) return c;
    if (refused && it.name) snprintf(refused, MZ_NAME + 1, "%s", it.name);
    if (place) *place = at;
    return c;
}

/* The same of a file on disk. MZ_BAD_OBJECT also where it can't be read, or has more than 16 MiB. */
static inline mz_code mz_load_object_file(mz_tc *tc, const char *path, char refused[MZ_NAME + 1], uint64_t *place) {
    if (refused) refused[0] = 0;
    if (place) *place = 0;
    FILE *file = path ? fopen(path, "rb") : NULL;
    if (!file) return path ? MZ_BAD_OBJECT : MZ_BAD_ARGUMENT;
    long size = fseek(file, 0, SEEK_END) ? -1 : ftell(file);
    mz_code c = size >= 0 && size <= 16 << 20 && !fseek(file, 0, SEEK_SET) ? MZ_OK : MZ_BAD_OBJECT;
    uint8_t *bytes = c == MZ_OK ? (uint8_t *)malloc(size ? (size_t)size : 1) : NULL;
    if (c == MZ_OK && !bytes) c = MZ_MEMORY;
    if (c == MZ_OK && fread(bytes, 1, (size_t)size, file) != (size_t)size) c = MZ_BAD_OBJECT;
    fclose(file);
    if (c == MZ_OK) c = mz_load_object(tc, bytes, (size_t)size, refused, place);
    free(bytes);
    return c;
}

#ifdef __cplusplus
}
#endif
#endif
