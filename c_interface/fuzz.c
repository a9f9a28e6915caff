/* Frames at random, to every kind of handle, and an object file that is broken at random places, a file for
 * every fifty calls: fuzz CALLS SEED. It ends with 0 where nothing went wrong: run it under AddressSanitizer
 * or valgrind. Half of a frame's fields stay from call to call, so that calls often mean something; one frame
 * of forty is noise. */
#include "mazzulpe_object.h"

static uint64_t x;

static uint64_t drawn(uint64_t below) {
    x ^= x << 13;
    x ^= x >> 7;
    x ^= x << 17;
    return (x >> 11) % below;
}

/* The log of an earlier transaction component, as rows and as a file's bytes, and how often one came back from each. */
static uint8_t rows[64][MZ_EVENT_BYTES], file_bytes[1 << 14];
static uint64_t row_count;
static size_t file_size;
static int is_filed; /* what happens to this one is kept as a file: no frame of noise takes a part of that */
static long back, back_from_file;

static void keep_rows(mz_tc *tc) {
    for (row_count = 0; row_count < 64 && mz_log_bytes(tc, row_count, rows[row_count]) == MZ_OK;) row_count++;
}

/* From a beginning of these rows, or from some that are changed. */
static void come_back(mz_tc *tc) {
    static const mz_note notes[2];
    if (row_count && drawn(4) == 0) rows[drawn(row_count)][drawn(MZ_EVENT_BYTES)] ^= (uint8_t)(1 + drawn(255));
    back += mz_recover(tc, rows, (size_t)drawn(row_count + 1), notes, 2, NULL) == MZ_OK;
}

static void keep_file(mz_tc *tc) {
    uint8_t piece[256];
    uint64_t prepared = 0;
    size_t count = 0;
    if (!is_filed || mz_file_ahead(tc, &prepared) != MZ_OK) return;
    for (file_size = 0; mz_file_bytes(tc, piece, &count) == MZ_OK && count; file_size += count) {
        if (file_size + count > sizeof file_bytes) return;
        memcpy(file_bytes + file_size, piece, count);
    }
}

/* From a beginning of these bytes, or from some that are changed. */
static void come_back_from_file(mz_tc *tc) {
    uint64_t whole = 0;
    if (file_size && drawn(4) == 0) file_bytes[drawn(file_size)] ^= (uint8_t)(1 + drawn(255));
    size_t count = drawn(4) ? file_size : (size_t)drawn(file_size + 1);
    if (mz_file_back(tc, file_bytes, count, &whole, NULL) != MZ_OK) return;
    if (whole > count) exit(3);
    back_from_file += whole != 0;
}

static mz_head *begun(void) {
    mz_code c;
    char refused[MZ_NAME + 1];
    if (drawn(4)) {
        mz_tc *tc = mz_tc_new(2, &c);
        if (!tc || mz_load_object_file(tc, "build/bank.o", refused, NULL) != MZ_OK) exit(2);
        uint64_t from = drawn(4);
        if (from == 0) come_back(tc);
        if (from == 1) come_back_from_file(tc);
        return (mz_head *)(void *)tc;
    }
    if (drawn(2)) return (mz_head *)(void *)mz_dc_new(50, 200, &c);
    return (mz_head *)(void *)mz_program_new(&c);
}

static void hand_in(mz_frame *f) {
    static uint8_t code[MZ_CODE_BYTES];
    static size_t size;
    static const mz_slot slots[2] = {{1, 0, 0, 1, 0}, {1, 1, 0, 1, 1}};
    if (!size) {
        FILE *file = fopen("build/move.bin", "rb");
        if (!file) exit(2);
        size = fread(code, 1, sizeof code, file);
        fclose(file);
    }
    mz_hand_in(f, code, size, slots, 2);
}

/* The next frame, which is often like the last. */
static void changed(mz_frame *f) {
    static const uint32_t whats[] = {20, 20, 20, 22, 22, 22, 23, 23, 24, 25, 25, 25, 25, 26, 27, 27, 28, 29,
                                     30, 31, 32, 33, 33, 34, 34, 35, 36, 40, 40, 40, 41, 42, 43, 44, 45, 46,
                                     47, 48, 49, 10, 11, 12, 13, 14, 21, 50, 51, 52, 52, 0,  1,  99, 15, 16, 37, 37,
                                     38, 38, 38, 39, 39, 60, 60, 61, 61, 62, 62, 62,
                                     63, 63, 64, 64, 64, 65};
    if (drawn(2)) f->txn = 1 + drawn(6);
    if (drawn(3) == 0) f->kind = (uint32_t)drawn(9);
    if (drawn(3) == 0) f->op = (uint32_t)drawn(6);
    if (drawn(3) == 0) f->count = (uint32_t)drawn(4);
    if (drawn(3) == 0) f->dc = (uint16_t)drawn(3);
    if (drawn(4) == 0) f->redo = (uint32_t)drawn(3);
    if (drawn(4) == 0) f->incarnation = drawn(4);
    if (drawn(4) == 0) f->low_water = drawn(8);
    if (drawn(3) == 0) {
        f->word = drawn(6);
        f->key = drawn(4);
        f->args[0] = drawn(4);
        f->args[1] = drawn(4);
    }
    if (drawn(40) == 0)
        for (uint8_t *at = (uint8_t *)f, *end = at + sizeof *f; at < end; at++) *at = (uint8_t)drawn(256);
    f->what = whats[drawn(sizeof whats / sizeof *whats)];
    if (is_filed && f->what >= MZ_CALL_FILE_AHEAD && f->what <= MZ_CALL_FILE_BACK) f->what = MZ_CALL_ASK;
    if ((f->what == 13 || f->what == 50) && drawn(2)) {
        uint32_t what = f->what;
        hand_in(f);
        f->what = what;
        f->word = 3;
    }
}

/* Loads the object file, cut off or with some bytes changed; 1 where it was loaded whole. */
static int broken_object(void) {
    static uint8_t whole[1 << 16];
    static size_t size;
    if (!size) {
        FILE *file = fopen("build/bank.o", "rb");
        if (!file) exit(2);
        size = fread(whole, 1, sizeof whole, file);
        fclose(file);
    }
    mz_code c;
    uint64_t place;
    size_t length = drawn(4) ? size : drawn(size + 1);
    uint8_t *object = malloc(length ? length : 1);
    mz_tc *tc = mz_tc_new(2, &c);
    if (!object || !tc) exit(2);
    memcpy(object, whole, length);
    for (uint64_t i = drawn(8); i-- && length;) object[drawn(4) ? drawn(length) : drawn(length < 64 ? length : 64)] = (uint8_t)drawn(256);
    c = mz_load_object(tc, object, length, NULL, &place);
    mz_tc_free(tc);
    free(object);
    return c == MZ_OK;
}

int main(int argc, char **argv) {
    long calls = argc > 1 ? atol(argv[1]) : 100000, done = 0, loaded = 0;
    x = (argc > 2 ? strtoull(argv[2], NULL, 10) : 1) * 2654435761u | 1;
    mz_head *head = NULL;
    for (long i = 0; i < calls; i++) {
        if (i % 500 == 0) {
            if (head && head->kind == MZ_KIND_TC) {
                keep_rows((mz_tc *)(void *)head);
                keep_file((mz_tc *)(void *)head);
            }
            if (head) mz_free(head, head->kind);
            is_filed = drawn(2) != 0;
            head = begun();
            if (!head) return 2;
        }
        mz_frame *f = (mz_frame *)(void *)(head + 1);
        if (i % 50 == 0) loaded += broken_object();
        changed(f);
        done += mazzulpe_call(f) == MZ_OK;
    }
    if (head) mz_free(head, head->kind);
    printf("%ld calls by random frames, %ld done; %ld broken objects, %ld loaded; %ld logs came back, %ld from a file\n", calls, done,
           calls / 50, loaded, back, back_from_file);
    return 0;
}
