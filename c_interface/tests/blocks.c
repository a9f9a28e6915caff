/* The library's memory (heap.c): a block that grows or shrinks keeps its first bytes and is aligned to 16; one that
 * there is no memory for stays as it was. */
#include "seen.h"
#include <stdint.h>
#include <stdlib.h>

static int is_spent;

/* malloc and realloc, as long as there is memory. */
static void *made_of(size_t size) { return is_spent ? NULL : malloc(size); }
static void *remade_of(void *p, size_t size) { return is_spent ? NULL : realloc(p, size); }

#define malloc made_of
#define realloc remade_of
#include "heap.c"
#undef malloc
#undef realloc

/* Byte i of a block is i % 251. */
static void fill(uint8_t *bytes, size_t count) {
    for (size_t i = 0; i < count; i++) bytes[i] = (uint8_t)(i % 251);
}

static bool is_filled(const uint8_t *bytes, size_t count) {
    for (size_t i = 0; i < count; i++)
        if (bytes[i] != i % 251) return false;
    return true;
}

static bool is_aligned(const void *p) { return (uintptr_t)p % 16 == 0; }

/* By each of these sizes in turn. */
static void resized(const size_t *sizes, size_t count) {
    tried block = rattle_alloc(sizes[0], 16);
    SEEN(block.ok && is_aligned(block.p));
    fill(block.p, sizes[0]);
    for (size_t i = 1; i < count; i++) {
        const size_t kept = sizes[i - 1] < sizes[i] ? sizes[i - 1] : sizes[i];
        block = rattle_realloc(block.p, kept, sizes[i], 16);
        SEEN(block.ok && is_aligned(block.p) && is_filled(block.p, kept));
        fill(block.p, sizes[i]);
    }
    rattle_dealloc(block.p);
}

/* A block of this size can't grow to the other one: there is no memory. */
static void refused(size_t size, size_t more) {
    tried block = rattle_alloc(size, 8);
    SEEN(block.ok);
    fill(block.p, size);
    is_spent = 1;
    SEEN(!rattle_alloc(size, 8).ok);
    const tried larger = rattle_realloc(block.p, size, more, 8);
    is_spent = 0;
    SEEN(!larger.ok && larger.p && is_filled(block.p, size));
    rattle_dealloc(block.p);
}

int main(void) {
    static const size_t grows[] = {8, 16, 32, 232, 1023, 1024, 1025, 5000, 300000, 4000000};
    static const size_t shrinks[] = {4000000, 300000, 1025, 1024, 40, 1};
    resized(grows, sizeof grows / sizeof *grows);
    resized(shrinks, sizeof shrinks / sizeof *shrinks);
    refused(100, 200);
    refused(100, 5000);
    printf("blocks: %s\n", failures ? "NOT as they have to be" : "each kept its bytes");
    return failures != 0;
}
