/* The names of arguments in an object file, whose section .BTF is then cut at each length, has each byte changed and each type made
 * one of each type: what is said is a name inside of the section, or none. Compiled with -fsanitize=address it also reads nothing
 * outside; so the types are tried at the section's end too. */
#include "../skeleton/names.h"
#include "seen.h"

enum { MOST = 1 << 20 };
static uint8_t file[MOST];
static const char *const functions[] = {"put", "mixed", "half", "packed", "plain", "nothing", "none"};
enum { FUNCTIONS = sizeof functions / sizeof *functions };

/* Whether the names are texts of these bytes. */
static int are_inside(const uint8_t *bytes, size_t size) {
    const char *names[MZ_ARGS];
    const mz_section section = {".BTF", bytes, size};
    int inside = 1;
    for (int f = 0; f < FUNCTIONS; f++) {
        btf_names(&section, functions[f], names);
        for (int i = 0; i < MZ_ARGS; i++) {
            const uint8_t *at = (const uint8_t *)names[i];
            if (at && (at < bytes || at >= bytes + size || !memchr(at, 0, (size_t)(bytes + size - at)))) inside = 0;
        }
    }
    return inside;
}

/* The same of a copy that ends where it ends. */
static int copy_is_inside(const uint8_t *bytes, size_t size, size_t changed, uint8_t to) {
    uint8_t *copy = (uint8_t *)malloc(size ? size : 1);
    if (!copy) return 0;
    memcpy(copy, bytes, size);
    if (changed < size) copy[changed] = to;
    int inside = are_inside(copy, size);
    free(copy);
    return inside;
}

static void put_little(uint8_t *to, uint64_t n) {
    for (int i = 0; i < 4; i++) to[i] = (uint8_t)(n >> 8 * i);
}

/* The section with its types behind its texts. */
static mz_section turned(const mz_section *section) {
    static uint8_t bytes[MOST];
    btf b;
    mz_section it = {".BTF", bytes, 0};
    if (!btf_open(&b, section)) return it;
    memcpy(bytes, section->bytes, BTF_HEADER);
    memcpy(bytes + BTF_HEADER, b.texts, (size_t)b.texts_size);
    memcpy(bytes + BTF_HEADER + b.texts_size, b.types, (size_t)b.types_size);
    put_little(bytes + 4, BTF_HEADER);
    put_little(bytes + 8, b.texts_size);
    put_little(bytes + 16, 0);
    it.size = (size_t)(BTF_HEADER + b.texts_size + b.types_size);
    return it;
}

static void cut_and_changed(const mz_section *section) {
    for (size_t cut = 0; cut <= section->size; cut++) SEEN(copy_is_inside(section->bytes, cut, cut, 0));
    for (size_t i = 0; i < section->size; i++)
        for (int k = 0; k < 4; k++) {
            uint8_t is = section->bytes[i], to[] = {0, 255, (uint8_t)(is ^ 128), (uint8_t)(is + 1)};
            SEEN(copy_is_inside(section->bytes, section->size, i, to[k]));
        }
}

/* The types alone cut, which are at the end: the section says how many bytes they have. */
static void types_cut(const mz_section *turned_one) {
    btf b;
    SEEN(btf_open(&b, turned_one));
    size_t before = (size_t)(b.types - turned_one->bytes);
    uint8_t *copy = (uint8_t *)malloc(turned_one->size);
    if (!copy) exit(2);
    memcpy(copy, turned_one->bytes, turned_one->size);
    for (size_t left = 0; left < b.types_size; left++) {
        put_little(copy + 12, left);
        SEEN(copy_is_inside(copy, before + left, MOST, 0));
    }
    free(copy);
}

/* A function before the types that it is of, and its structure at the end. */
static mz_section function_first(void) {
    static const char texts[] = "\0put\0item";
    static const uint32_t words[] = {
        0x01eb9f, BTF_HEADER, sizeof texts, 84, 0, sizeof texts,
        1, (uint32_t)BTF_FUNC << 24, 2, 0, (uint32_t)BTF_FUNC_PROTO << 24 | 1, 0, 0, 3, 0, (uint32_t)BTF_PTR << 24, 5,
        0, (uint32_t)BTF_INT << 24, 8, 64, 0, (uint32_t)BTF_STRUCT << 24 | 1, 8, 5, 4, 0};
    static uint8_t bytes[BTF_HEADER + sizeof texts + 84];
    for (size_t i = 0; i < 6; i++) put_little(bytes + 4 * i, words[i]);
    memcpy(bytes + BTF_HEADER, texts, sizeof texts);
    for (size_t i = 6; i < sizeof words / sizeof *words; i++) put_little(bytes + BTF_HEADER + sizeof texts + 4 * (i - 6), words[i]);
    mz_section it = {".BTF", bytes, sizeof bytes};
    return it;
}

/* Circles among types end. */
static void of_each_type(const mz_section *section) {
    btf b;
    btf_type type;
    uint64_t count = 0, place = 0;
    SEEN(btf_open(&b, section));
    while (btf_next(&b, &place, &type)) count++;
    SEEN(count > 10);
    for (place = 0; btf_next(&b, &place, &type);)
        for (uint64_t of = 0; of <= count; of++) {
            uint64_t is = mz_little(type.at + 8, 4);
            put_little(file + (type.at + 8 - file), of);
            SEEN(are_inside(section->bytes, section->size));
            put_little(file + (type.at + 8 - file), is);
        }
}

static void named(const mz_section *section, const char *function, const char *const wanted[MZ_ARGS]) {
    const char *names[MZ_ARGS];
    btf_names(section, function, names);
    for (int i = 0; i < MZ_ARGS; i++) SEEN(wanted[i] ? names[i] && !strcmp(names[i], wanted[i]) : !names[i]);
}

int main(void) {
    static const char *const put[MZ_ARGS] = {"item", "amount"}, *const half[MZ_ARGS] = {"first", NULL, "third"};
    static const char *const item[MZ_ARGS] = {"item"}, *const none[MZ_ARGS] = {NULL};
    static const char *const mixed[MZ_ARGS] = {"class", "txn", "record", "record_", "args", "code", "holder", "arg0"};
    mz_object object;
    mz_section section;
    FILE *from = fopen("build/named.o", "rb");
    size_t size = from ? fread(file, 1, MOST, from) : 0;
    if (from) fclose(from);
    if (!mz_object_open(&object, file, size) || !mz_object_find(&object, ".BTF", "", &section)) return 2;
    named(&section, "put", put);
    named(&section, "mixed", mixed);
    named(&section, "half", half);
    named(&section, "packed", none);
    named(&section, "plain", none);
    named(&section, "none", none);
    mz_section other = turned(&section), first = function_first();
    named(&other, "mixed", mixed);
    named(&first, "put", item);
    cut_and_changed(&section);
    cut_and_changed(&other);
    cut_and_changed(&first);
    types_cut(&other);
    types_cut(&first);
    of_each_type(&section);
    printf("names: %s\n", failures ? "NOT what is compiled" : "what is compiled, and nothing from outside of the file");
    return failures != 0;
}
