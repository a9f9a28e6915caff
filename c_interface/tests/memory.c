/* Each growth refused in turn: an object file is loaded whole, or the same call goes on once there is memory;
 * a file with one procedure that is refused loads none; a log is recovered from whole or not at all, and what it
 * left open then goes on without any memory. */
#include "mazzulpe_object.h"
#include "seen.h"
#include <stdbool.h>

typedef struct { bool ok; void *p; } tried;

/* heap.c's three, of which all from the `left`-th on are refused. */
static long left = -1;
static char none;

static tried made(void *p) {
    tried it = {p != NULL, p ? p : &none};
    return it;
}

static bool refused(void) { return left >= 0 && left-- == 0 ? (left = 0, true) : false; }

tried rattle_alloc(size_t size, size_t align);
tried rattle_realloc(void *p, size_t kept, size_t size, size_t align);
void rattle_dealloc(void *p);

tried rattle_alloc(size_t size, size_t align) { return made(refused() ? NULL : malloc(size ? size : align)); }
tried rattle_realloc(void *p, size_t kept, size_t size, size_t align) {
    (void)kept;
    return made(refused() ? NULL : realloc(p, size ? size : align));
}
void rattle_dealloc(void *p) { free(p); }

static const char *const names[] = {"deposit_here", "deposit_there", "move", "move_back", "touch"};
enum { NAMES = 5 };

static int how_many(mz_tc *tc) {
    int count = 0;
    uint64_t number;
    for (int i = 0; i < NAMES; i++) count += mz_find(tc, names[i], &number) == MZ_OK;
    return count;
}

/* Each with a component of its own, whose every growth from the n-th on is refused while it loads. */
static int cut_off_at(long n) {
    mz_code code;
    mz_tc *tc = mz_tc_new(2, &code);
    left = n;
    code = mz_load_object_file(tc, "build/bank.o", NULL, NULL);
    left = -1;
    int cut_off = code == MZ_MEMORY;
    SEEN(cut_off || code == MZ_OK);
    int some = how_many(tc);
    SEEN(cut_off || some == NAMES);
    if (cut_off) SEEN(mz_load_object_file(tc, "build/bank.o", NULL, NULL) == MZ_OK);
    SEEN(how_many(tc) == NAMES);
    SEEN(mz_load_object_file(tc, "build/bank.o", NULL, NULL) == MZ_NAME_TAKEN);
    mz_tc_free(tc);
    return cut_off ? 1 + (some > 0) : 0;
}

static mz_carried carry(void *context, const mz_wire *wire, mz_reply *reply, mz_news *news) {
    (void)news;
    return mz_dc_perform((mz_dc *)context, wire, reply) == MZ_OK ? MZ_REPLIED : MZ_LOST;
}

enum { OPEN = 5 };

/* Five deposits, each with its first request open. */
static mz_tc *with_open(void) {
    mz_code code;
    mz_asked asked;
    uint64_t txn = 0;
    mz_tc *tc = mz_tc_new(2, &code);
    SEEN(mz_load_object_file(tc, "build/bank.o", NULL, NULL) == MZ_OK);
    for (uint64_t i = 0; i < OPEN; i++) {
        const uint64_t args[] = {i, 10};
        SEEN(mz_admit(tc, 0, args, 2, &txn, NULL, NULL) == MZ_OK && mz_ask(tc, txn, &asked) == MZ_OK);
    }
    return tc;
}

/* Their log. */
static size_t left_open(uint8_t rows[][MZ_EVENT_BYTES]) {
    size_t count = 0;
    mz_tc *tc = with_open();
    while (mz_log_bytes(tc, count, rows[count]) == MZ_OK) count++;
    mz_tc_free(tc);
    return count;
}

/* Comes back with each growth from the n-th on refused; 0 where none was. */
static int back_at(long n, const void *rows, size_t count) {
    static const mz_note notes[2];
    mz_code code;
    mz_asked asked;
    mz_receipt receipt = {MZ_ABORTED, 0, 0};
    mz_next stopped;
    mz_tc *tc = mz_tc_new(2, &code);
    mz_dc *dc = mz_dc_new(10, 100, &code);
    SEEN(mz_load_object_file(tc, "build/bank.o", NULL, NULL) == MZ_OK);
    left = n;
    code = mz_recover(tc, rows, count, notes, 2, NULL);
    left = -1;
    int cut_off = code != MZ_OK;
    if (cut_off) SEEN(code == MZ_MEMORY && mz_log_length(tc) == 0 && mz_open_count(tc) == 0);
    if (cut_off) SEEN(mz_recover(tc, rows, count, notes, 2, NULL) == MZ_OK);
    SEEN(mz_log_length(tc) == count && mz_open_count(tc) == OPEN);
    left = 0;
    for (uint64_t txn = 1; txn <= OPEN; txn++) SEEN(mz_retake(tc, txn, &asked) == MZ_OK && asked.wire.number == txn);
    for (uint64_t txn = 1; txn <= OPEN; txn++)
        SEEN(mz_run(tc, txn, carry, dc, 1, &receipt, &stopped) == MZ_OK && receipt.outcome == MZ_COMMITTED);
    left = -1;
    mz_dc_free(dc);
    mz_tc_free(tc);
    return cut_off;
}

enum { FILE_BYTES = 88 + 24 + 8 + 2 * OPEN * MZ_EVENT_BYTES }; /* a header, and a frame without notes */

/* The file of their log, made with each growth from the n-th on refused and then none; 0 where none was. */
static int ahead_at(long n, uint8_t *bytes) {
    uint64_t prepared = 0;
    size_t count = 0, piece = 0;
    mz_tc *tc = with_open();
    left = n;
    mz_code code = mz_file_ahead(tc, &prepared);
    left = -1;
    int cut_off = code != MZ_OK;
    if (cut_off) SEEN(code == MZ_MEMORY && prepared == 0 && mz_file_ahead(tc, &prepared) == MZ_OK);
    SEEN(prepared == FILE_BYTES);
    for (left = 0; count < prepared; count += piece) SEEN(mz_file_bytes(tc, bytes + count, &piece) == MZ_OK);
    left = -1;
    mz_tc_free(tc);
    return cut_off;
}

/* The way back from it, refused so. */
static int back_from_file_at(long n, const uint8_t *bytes) {
    mz_code code;
    uint64_t whole = 0;
    mz_tc *tc = mz_tc_new(2, &code);
    SEEN(mz_load_object_file(tc, "build/bank.o", NULL, NULL) == MZ_OK);
    left = n;
    code = mz_file_back(tc, bytes, FILE_BYTES, &whole, NULL);
    left = -1;
    int cut_off = code != MZ_OK;
    if (cut_off) SEEN(code == MZ_MEMORY && mz_log_length(tc) == 0 && mz_open_count(tc) == 0);
    if (cut_off) SEEN(mz_file_back(tc, bytes, FILE_BYTES, &whole, NULL) == MZ_OK);
    SEEN(whole == FILE_BYTES && mz_log_length(tc) == 2 * OPEN && mz_open_count(tc) == OPEN);
    mz_tc_free(tc);
    return cut_off;
}

static void files(void) {
    static uint8_t bytes[FILE_BYTES + 256];
    long refusals = 0;
    while (ahead_at(refusals, bytes)) refusals++;
    SEEN(refusals > 2);
    for (refusals = 0; back_from_file_at(refusals, bytes);) refusals++;
    SEEN(refusals > 10);
}

int main(void) {
    mz_code code;
    uint64_t place;
    char name[MZ_NAME + 1];
    int cuts = 0, between = 0, how;
    for (long n = 0; (how = cut_off_at(n)) != 0; n++) cuts++, between += how == 2;
    SEEN(cuts > NAMES && between > 0);
    /* one data component: some of the file's procedures name a second, and none is loaded */
    mz_tc *tc = mz_tc_new(1, &code);
    SEEN(mz_load_object_file(tc, "build/bank.o", name, &place) == MZ_DC_UNKNOWN && !strcmp(name, "deposit_there"));
    SEEN(how_many(tc) == 0);
    mz_tc_free(tc);
    uint8_t rows[4 * OPEN][MZ_EVENT_BYTES];
    size_t count = left_open(rows);
    long refusals = 0;
    while (back_at(refusals, rows, count)) refusals++;
    SEEN(count == 2 * OPEN && refusals > 10);
    files();
    printf("memory: %s\n", failures ? "NOT as it has to be" : "whole, or goes on");
    return failures != 0;
}
