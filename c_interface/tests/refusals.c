/* What each call is refused with, at the edges of what a frame may have, and that with enough memory none wants it:
 * frames made by hand, which the functions of the header wouldn't all make. */
#include "mazzulpe.h"
#include "seen.h"

/* Reads the record of slot 0, and answers 0: mov r1, 0; call 1; mov r0, 0; exit. */
static const uint8_t reads[32] = {0xb7, 1, 0, 0, 0, 0, 0, 0, 0x85, 0, 0, 0, 1, 0, 0, 0, 0xb7, 0, 0, 0, 0, 0, 0, 0, 0x95};

static mz_frame *frame_of(void *handle) { return (mz_frame *)(void *)((mz_head *)handle + 1); }

static void *begun(uint32_t what, uint64_t word, uint64_t place, mz_code expected) {
    static const uint32_t kinds[] = {MZ_KIND_CLOSED, MZ_KIND_TC, MZ_KIND_DC, MZ_KIND_PROGRAM};
    mz_code code;
    void *handle = mz_new(kinds[what < 4 ? what : 0], what, word, place, &code);
    SEEN(code == expected && (handle != NULL) == (code == MZ_OK));
    if (expected == MZ_OK && !handle) exit(1);
    return handle;
}

/* Those of the numbers that the header names for this kind of handle are calls, and no others. */
static void each_number(void *handle, const char *are_calls) {
    for (uint32_t what = 0; what < 100; what++) {
        memset(frame_of(handle), 0, sizeof(mz_frame));
        SEEN((mz_make(frame_of(handle), what) != MZ_NO_SUCH_CALL) == (are_calls[what] == '+'));
    }
    SEEN(mz_make(frame_of(handle), UINT32_MAX) == MZ_NO_SUCH_CALL);
}

static void marked(char *are_calls, int from, int to) {
    for (int what = from; what <= to; what++) are_calls[what] = '+';
}

static void begins(void) {
    char tc[100] = {0}, dc[100] = {0}, program[100] = {0};
    marked(tc, 10, 39), tc[17] = tc[18] = tc[19] = 0, marked(tc, 60, 67);
    marked(dc, 40, 49);
    marked(program, 10, 12), marked(program, 50, 52);
    void *handle = begun(MZ_CALL_START_TC, 65535, 0, MZ_OK);
    each_number(handle, tc);
    mz_free(handle, MZ_KIND_TC);
    handle = begun(MZ_CALL_START_DC, 65536, 1048576, MZ_OK);
    each_number(handle, dc);
    mz_free(handle, MZ_KIND_DC);
    mz_free(begun(MZ_CALL_START_DC, 0, 0, MZ_OK), MZ_KIND_DC);
    handle = begun(MZ_CALL_START_CODE, UINT64_MAX, UINT64_MAX, MZ_OK);
    each_number(handle, program);
    mz_free(handle, MZ_KIND_PROGRAM);
    begun(MZ_CALL_START_TC, 65536, 0, MZ_BAD_ARGUMENT);
    begun(MZ_CALL_START_DC, 65537, 0, MZ_BAD_ARGUMENT);
    begun(MZ_CALL_START_DC, 0, 1048577, MZ_BAD_ARGUMENT);
    begun(0, 0, 0, MZ_NO_SUCH_CALL);
    begun(MZ_CALL_ADMIT, 0, 0, MZ_NO_SUCH_CALL);
}

#define SAYS(code, what) SEEN(mz_make(f, MZ_CALL_##what) == (code))

/* What is no code and no slot; then 300 times some of each, so that what is handed in grows; then the code above and its slot. */
static void handed_in(mz_frame *f) {
    f->count = 257;
    SAYS(MZ_BAD_ARGUMENT, BYTES);
    f->kind = 2, f->op = 0, f->key = 0;
    SAYS(MZ_BAD_ARGUMENT, SLOT);
    f->kind = 0, f->op = 2;
    SAYS(MZ_BAD_ARGUMENT, SLOT);
    f->op = 1, f->key = 256;
    SAYS(MZ_BAD_ARGUMENT, SLOT);
    f->key = 255;
    for (int i = 0; i < 300; i++) {
        f->count = i % 257;
        SAYS(MZ_OK, BYTES);
        SAYS(MZ_OK, SLOT);
    }
    SAYS(MZ_OK, CLEAR);
    memcpy(f->bytes, reads, f->count = sizeof reads);
    SAYS(MZ_OK, BYTES);
    f->key = 0;
    SAYS(MZ_OK, SLOT);
}

static void named(mz_frame *f) {
    f->word = 256;
    SAYS(MZ_BAD_ARGUMENT, LOAD);
    f->word = 1, f->count = 257;
    SAYS(MZ_BAD_ARGUMENT, LOAD);
    SAYS(MZ_BAD_ARGUMENT, FIND);
    memset(f->bytes, 'r', 256), f->bytes[255] = 0xff, f->count = 256;
    SAYS(MZ_NOT_TEXT, LOAD);
    SAYS(MZ_NOT_TEXT, FIND);
    f->bytes[255] = 'r';
    SAYS(MZ_NO_PROCEDURE, FIND);
    SAYS(MZ_OK, LOAD);
    SAYS(MZ_OK, FIND);
    SEEN(f->word == 0);
    f->word = 1;
    SAYS(MZ_NAME_TAKEN, LOAD);
    f->count = 255;
    SAYS(MZ_NO_PROCEDURE, FIND);
}

static void admitted(mz_frame *f) {
    f->word = 1, f->count = 9;
    SAYS(MZ_BAD_ARGUMENT, ADMIT);
    SAYS(MZ_BAD_ARGUMENT, BLOCKED);
    f->count = 8;
    SAYS(MZ_NO_PROCEDURE, ADMIT);
    f->word = 0;
    SAYS(MZ_ARGUMENT_COUNT, ADMIT);
    for (uint64_t txn = 1; txn <= 300; txn++) {
        f->word = 0, f->count = 1, f->args[0] = txn;
        SAYS(MZ_OK, ADMIT);
        SEEN(f->txn == txn);
        SAYS(MZ_OK, BLOCKED);
        SEEN(f->word == 0);
        SAYS(MZ_OK, UNDO);
        SEEN(f->kind == MZ_RUNNING);
        SAYS(MZ_OK, ASK);
        SEEN(f->kind == MZ_REQUEST && f->number == txn);
    }
}

/* Of transaction 1, whose request is kept, and of 301, which isn't open. */
static void asked(mz_frame *f) {
    f->txn = 301, f->kind = 2, f->number = 1, f->incarnation = 0;
    SAYS(MZ_NO_TXN, ASK);
    SAYS(MZ_NO_TXN, UNDO);
    SAYS(MZ_NO_TXN, END);
    SAYS(MZ_NO_TXN, RETAKE);
    SAYS(MZ_NO_TXN, RESULT);
    SAYS(MZ_NOTHING_OPEN, WIRE);
    SAYS(MZ_NOTHING_OPEN, ANSWER);
    SAYS(MZ_NOTHING_OPEN, GIVE_UP);
    f->txn = 1, f->place = 0;
    SAYS(MZ_NOT_OVER, RESULT);
    f->place = 1;
    SAYS(MZ_NO_PLACE, RESULT);
    f->place = UINT64_MAX;
    SAYS(MZ_NO_PLACE, RESULT);
    SAYS(MZ_NOT_OVER, END);
    SAYS(MZ_OK, GIVE_UP);
    SAYS(MZ_NOTHING_OPEN, WIRE);
    SAYS(MZ_OK, RETAKE);
    f->kind = 0;
    SAYS(MZ_BAD_ARGUMENT, ANSWER);
    f->kind = 9;
    SAYS(MZ_BAD_ARGUMENT, ANSWER);
    f->kind = 3;
    SAYS(MZ_STRANGER, ANSWER);
    f->kind = 2;
    SAYS(MZ_OK, ANSWER);
    SAYS(MZ_NOTHING_OPEN, RETAKE);
    SAYS(MZ_OK, ASK);
    SEEN(f->kind == MZ_OVER);
    f->place = 1;
    SAYS(MZ_NO_PLACE, RESULT);
    f->place = 0, f->value[0] = 9, f->word = 7;
    SAYS(MZ_OK, RESULT);
    SEEN(f->value[0] == 0 && f->word == 0);
    SAYS(MZ_OK, END);
    SAYS(MZ_NO_TXN, END);
    SAYS(MZ_NO_TXN, RESULT);
}

/* 602 events: two of each call, and two more of the first. */
static void looked(mz_frame *f) {
    f->dc = 1;
    SAYS(MZ_NO_DC, SITE);
    SAYS(MZ_NO_DC, TOLD);
    SAYS(MZ_NO_DC, REDO_NEXT);
    f->dc = 0;
    SAYS(MZ_OK, SITE);
    SAYS(MZ_NOT_DOWN, REDO_NEXT);
    SAYS(MZ_OLD_NEWS, TOLD);
    f->kind = 0;
    SAYS(MZ_BAD_ARGUMENT, REDONE);
    f->kind = 2;
    SAYS(MZ_STRANGER, REDONE);
    SAYS(MZ_TXNS_OPEN, LOG_ANEW);
    SAYS(MZ_OK, LOG_LENGTH);
    SEEN(f->word == 602);
    for (f->place = 0; f->place < 602; f->place++) SAYS(MZ_OK, LOG_BYTES);
    SAYS(MZ_NO_PLACE, LOG_BYTES);
    SAYS(MZ_NO_PLACE, OPEN_FROM);
    SAYS(MZ_NO_PLACE, WAITING_FROM);
    SAYS(MZ_NO_PLACE, LOCK_AT);
    f->incarnation = 1, f->low_water = 0, f->txn = 2;
    SAYS(MZ_OK, WIRE);
    f->incarnation = 1, f->low_water = 0;
    SAYS(MZ_OK, TOLD);
    SAYS(MZ_DC_DOWN, WIRE);
    SAYS(MZ_OK, REDO_NEXT);
}

/* The log of this one comes back in another. */
static void came_back(mz_frame *from, mz_frame *f) {
    f->kind = 0;
    SAYS(MZ_BAD_ARGUMENT, NOTE);
    f->kind = 3;
    SAYS(MZ_BAD_ARGUMENT, NOTE);
    SAYS(MZ_OK, CLEAR);
    for (from->place = 0; mz_make(from, MZ_CALL_LOG_BYTES) == MZ_OK; from->place++) {
        memcpy(f->bytes, from->bytes, f->count = from->count);
        SAYS(MZ_OK, BYTES);
    }
    SAYS(MZ_NOTE_COUNT, RECOVER);
    f->kind = 1, f->incarnation = 0;
    SAYS(MZ_OK, NOTE);
    SAYS(MZ_OK, RECOVER);
    SAYS(MZ_BEGUN, RECOVER);
    for (f->txn = 2; f->txn <= 300; f->txn++) SAYS(MZ_OK, RETAKE);
    SAYS(MZ_NO_TXN, RETAKE);
}

static void a_tc(void) {
    void *tc = begun(MZ_CALL_START_TC, 1, 0, MZ_OK), *other = begun(MZ_CALL_START_TC, 1, 0, MZ_OK);
    mz_frame *f = frame_of(tc);
    SAYS(MZ_NOTHING_YET, LOG_ANEW);
    handed_in(f), handed_in(frame_of(other));
    named(f), named(frame_of(other));
    admitted(f);
    asked(f);
    looked(f);
    came_back(f, frame_of(other));
    mz_free(tc, MZ_KIND_TC);
    mz_free(other, MZ_KIND_TC);
}

/* The bytes of a log's file: begun, handed out once, and no way back behind that. */
static void a_file(void) {
    void *tc = begun(MZ_CALL_START_TC, 1, 0, MZ_OK);
    mz_frame *f = frame_of(tc);
    memcpy(f->bytes, "0123456789abcdef", f->count = 16);
    SAYS(MZ_OK, BYTES);
    SAYS(MZ_NO_LOG, FILE_BACK);
    SAYS(MZ_OK, CLEAR);
    SAYS(MZ_OK, FILE_BACK);
    SEEN(f->word == 0);
    SAYS(MZ_OK, FILE_AHEAD);
    SEEN(f->word == 88);
    SAYS(MZ_OK, FILE_AHEAD);
    SEEN(f->word == 88);
    SAYS(MZ_BEGUN, FILE_BACK);
    SAYS(MZ_OK, FILE_BYTES);
    SEEN(f->count == 88 && mz_little(f->bytes, 8) == 0 && mz_little(f->bytes + 8, 8) == 64);
    SAYS(MZ_OK, FILE_BYTES);
    SEEN(f->count == 0);
    SAYS(MZ_OK, FILE_AHEAD);
    SEEN(f->word == 0);
    handed_in(f);
    f->count = 1, f->bytes[0] = 'p', f->word = 1;
    SAYS(MZ_OK, LOAD);
    SAYS(MZ_OTHER_PROCEDURES, FILE_AHEAD);
    mz_free(tc, MZ_KIND_TC);
}

static void a_dc(void) {
    void *dc = begun(MZ_CALL_START_DC, 10, 10, MZ_OK);
    mz_frame *f = frame_of(dc);
    SAYS(MZ_BAD_ARGUMENT, PERFORM);
    f->op = 5;
    SAYS(MZ_BAD_ARGUMENT, PERFORM);
    f->op = MZ_INSERT, f->number = 1, f->key = 7, f->redo = 2;
    SAYS(MZ_BAD_ARGUMENT, PERFORM);
    f->redo = 0, f->incarnation = 1;
    SAYS(MZ_SILENT, PERFORM);
    f->incarnation = 0;
    SAYS(MZ_OK, PERFORM);
    SAYS(MZ_OK, ROWS);
    SEEN(f->word == 1);
    f->place = 0, f->key = 0;
    SAYS(MZ_OK, ROW);
    SEEN(f->key == 7 && f->kind == MZ_VALUE_IS);
    f->place = 1;
    SAYS(MZ_NO_PLACE, ROW);
    for (uint64_t i = 1; i < 100; i++) {
        SAYS(MZ_OK, RESTART);
        SEEN(f->incarnation == i);
    }
    SAYS(MZ_OK, ROWS);
    SEEN(f->word == 0);
    mz_free(dc, MZ_KIND_DC);
}

static void a_program(void) {
    void *program = begun(MZ_CALL_START_CODE, 0, 0, MZ_OK);
    mz_frame *f = frame_of(program);
    f->count = 9, f->kind = 0;
    SAYS(MZ_NO_PROCEDURE, RUN);
    SAYS(MZ_NO_PROCEDURE, RESUME);
    handed_in(f);
    f->word = 256;
    SAYS(MZ_BAD_ARGUMENT, VERIFY);
    f->word = 1;
    SAYS(MZ_OK, VERIFY);
    SEEN(f->word == 4);
    f->count = 9;
    SAYS(MZ_BAD_ARGUMENT, RUN);
    f->count = 2;
    SAYS(MZ_ARGUMENT_COUNT, RUN);
    SAYS(MZ_NOTHING_OPEN, RESUME);
    f->count = 1;
    SAYS(MZ_OK, RUN);
    SEEN(f->op == MZ_READ);
    f->kind = 9;
    SAYS(MZ_BAD_ARGUMENT, RESUME);
    f->kind = MZ_DONE;
    SAYS(MZ_STRANGER, RESUME);
    f->kind = MZ_ABSENT;
    SAYS(MZ_OK, RESUME);
    SEEN(f->op == 0 && f->word == 0);
    SAYS(MZ_NOTHING_OPEN, RESUME);
    mz_free(program, MZ_KIND_PROGRAM);
}

int main(void) {
    begins();
    a_tc();
    a_file();
    a_dc();
    a_program();
    printf("refusals: %s\n", failures ? "NOT as they have to be" : "as the header says, and no memory is wanted");
    return failures != 0;
}
