/* called.h: what functions, arguments and access slots are called in C and in Rust. */
#ifndef MZ_SKELETON_CALLED_H
#define MZ_SKELETON_CALLED_H

#include "skeleton.h"

static const char *const c_words[] = {
    "alignas", "alignof", "and", "and_eq", "asm", "auto", "bitand", "bitor", "bool", "break", "case", "catch", "char", "char8_t",
    "char16_t", "char32_t", "class", "co_await", "co_return", "co_yield", "compl", "concept", "const", "const_cast", "consteval",
    "constexpr", "constinit", "continue", "decltype", "default", "delete", "do", "double", "dynamic_cast", "else", "enum", "explicit",
    "export", "extern", "false", "float", "for", "friend", "goto", "if", "inline", "int", "long", "mutable", "namespace", "new",
    "noexcept", "not", "not_eq", "nullptr", "operator", "or", "or_eq", "private", "protected", "public", "register",
    "reinterpret_cast", "requires", "restrict", "return", "short", "signed", "sizeof", "static", "static_assert", "static_cast",
    "struct", "switch", "template", "this", "thread_local", "throw", "true", "try", "typedef", "typeid", "typename", "typeof",
    "typeof_unqual", "union", "unsigned", "using", "virtual", "void", "volatile", "wchar_t", "while", "xor", "xor_eq", NULL};
static const char *const c_own[] = {"tc", "txn", "record", "holder", "blocked", "args", "procedure", "code", "pool", "held", "receipt", "values", NULL};

/* Refusal, a tuple structure that the module uses, has its name among functions too. */
static const char *const rust_words[] = {
    "_", "Refusal", "Self", "abstract", "as", "async", "await", "become", "box", "break", "const", "continue", "crate", "do", "dyn",
    "else", "enum", "extern", "false", "final", "fn", "for", "gen", "if", "impl", "in", "let", "loop", "macro", "match", "mod",
    "move", "mut", "override", "priv", "pub", "ref", "return", "self", "static", "struct", "super", "trait", "true", "try", "type",
    "typeof", "unsafe", "unsized", "use", "virtual", "where", "while", "yield", NULL};
/* The name of a constant or of a variant is no new name where an argument stands; what reads a slot `blocked` would be as BLOCKED is. */
static const char *const rust_own[] = {"tc", "pool", "blocked", "procedure", "DCS", "Err", "None", "Ok", "Some", NULL};

static const language in_c = {c_words, c_own, "dcs"}, in_rust = {rust_words, rust_own, "DCS"};

static int begins_name(char c) { return (c >= 'a' && c <= 'z') || (c >= 'A' && c <= 'Z') || c == '_'; }

static int is_name(const char *text) {
    if (!begins_name(*text)) return 0;
    while (begins_name(*text) || (*text >= '0' && *text <= '9')) text++;
    return *text == 0;
}

static int is_in(const char *const *list, const char *name) {
    while (*list && strcmp(*list, name)) list++;
    return *list != NULL;
}

/* Gives argument i this name if it is one, else its number; with _ behind it as long as it is taken. */
static void name_argument(procedure *it, unsigned i, const char *name, const language *in) {
    char *to = it->arguments[i];
    if (name && is_name(name) && strlen(name) < ARGUMENT - MZ_ARGS - 2) snprintf(to, ARGUMENT, "%s", name);
    else snprintf(to, ARGUMENT, "arg%u", i);
    if (is_in(in->words, to) || is_in(in->own, to)) strcat(to, "_");
    for (unsigned k = 0; k < i; k++) {
        if (strcmp(to, it->arguments[k])) continue;
        strcat(to, "_");
        k = (unsigned)-1;
    }
}

/* ---- access slots */

/* What the name of an access slot says: the key of its record; with it the table; the data component; the slot's number. */
enum { WITH_KEY, WITH_TABLE, WITH_DC, WITH_NUMBER };

/* The name of access slot i that says so much. */
static void make_slot_name(const procedure *it, size_t i, int said, char name[SLOT]) {
    const mz_slot *slot = &it->is.slots[i];
    char behind[24] = "";
    switch (said) {
    case WITH_TABLE: snprintf(behind, sizeof behind, "_%u", slot->table); break;
    case WITH_DC: snprintf(behind, sizeof behind, "_%u_%u", slot->dc, slot->table); break;
    case WITH_NUMBER: snprintf(behind, sizeof behind, "_%u_%u_%u", slot->dc, slot->table, (unsigned)i); break;
    default: break;
    }
    if (slot->by_argument) snprintf(name, SLOT, "%s%s", it->arguments[slot->key], behind);
    else snprintf(name, SLOT, "slot%u%s", (unsigned)i, behind);
}

/* Whether the names that say so much tell access slot i from each other one. */
static int is_told(const procedure *it, size_t i, int said) {
    char name[SLOT], other[SLOT];
    make_slot_name(it, i, said, name);
    for (size_t k = 0; k < it->is.count; k++) {
        make_slot_name(it, k, said, other);
        if (k != i && !strcmp(name, other)) return 0;
    }
    return 1;
}

/* Names each access slot as shortly as it is told from the others. */
static void name_slots(procedure *it) {
    for (size_t i = 0; i < it->is.count; i++) {
        int said = WITH_KEY;
        while (said < WITH_NUMBER && !is_told(it, i, said)) said++;
        make_slot_name(it, i, said, it->slots[i]);
    }
}

/* ---- functions */

/* A function of a procedure: its call, what says whether it is blocked, its call by a pool, in C the type of what that held; and below
 * them what reads an access slot of that number. */
enum { CALL = MZ_SLOTS, BLOCKED, POOLED, HELD, FUNCTIONS };

static int is_function(const skeleton *of, const procedure *it, unsigned what) {
    if (what == HELD) return of->in == &in_c && it->is.count > 0;
    return what >= CALL || what < it->is.count;
}

static void make_function_name(const skeleton *of, const procedure *it, unsigned what, char name[FUNCTION]) {
    static const char *const behinds[] = {"", "blocked", "call", "held"};
    const char *behind = what < CALL ? it->slots[what] : behinds[what - CALL];
    snprintf(name, FUNCTION, "%s%s%s%s", of->prefix, it->is.name, *behind ? "_" : "", behind);
    if (is_in(of->in->words, name)) strcat(name, "_");
}

/* Says of a function that another one has its name. */
static int refused_name(const skeleton *of, const procedure *it, unsigned what, const char *name) {
    char why[FUNCTION + 64], slot[32] = "";
    if (what < CALL) snprintf(slot, sizeof slot, "access slot %u ", what);
    snprintf(why, sizeof why, "%sis called %s, as another function is", slot, name);
    return refused(of, it->is.name, why);
}

/* Whether the functions of two procedures, or of one, have names of their own. Of an access slot and another one the slot is refused. */
static int are_apart(const skeleton *of, const procedure *it, const procedure *other) {
    char name[FUNCTION], others[FUNCTION];
    for (unsigned i = 0; i < FUNCTIONS; i++)
        for (unsigned k = 0; k < FUNCTIONS; k++) {
            if ((it == other && k <= i) || !is_function(of, it, i) || !is_function(of, other, k)) continue;
            make_function_name(of, it, i, name);
            make_function_name(of, other, k, others);
            if (strcmp(name, others)) continue;
            return k < CALL && i >= CALL ? refused_name(of, other, k, name) : refused_name(of, it, i, name);
        }
    return 0;
}

/* Whether each function has a name of its own. Of two whose names are the same, the name of the one's procedure begins the other's. */
static int are_named(const skeleton *it) {
    if (!it->count) return refused(it, NULL, "no procedure in it (a section procedure/NAME)");
    for (size_t i = 0; i < it->count; i++) {
        const procedure *made = &it->procedures[i];
        const char *name = made->is.name;
        if (!is_name(name)) return refused(it, name, "is no name in C or Rust");
        if (!strcmp(name, "open") || !strcmp(name, it->in->dcs)) return refused(it, name, "is a name of the skeleton itself");
    }
    for (size_t i = 0; i < it->count; i++)
        for (size_t k = 0; k < it->count; k++) {
            const procedure *made = &it->procedures[i], *other = &it->procedures[k];
            int begins = !strncmp(made->is.name, other->is.name, strlen(other->is.name));
            int status = begins ? are_apart(it, made, other) : 0;
            if (status) return status;
        }
    return 0;
}

static void print_function_name(const skeleton *of, const procedure *it, unsigned what) {
    char name[FUNCTION];
    make_function_name(of, it, what, name);
    printf("%s", name);
}

#endif
