/* What is wrong at a call is refused: NULL, a handle of another kind, one that is closed, a wire to nobody.
 * In C99 and in C++. */
#include "mazzulpe_object.h"
#include "seen.h"

/* mov r0, 0; exit */
static const uint8_t answers_0[16] = {0xb7, 0, 0, 0, 0, 0, 0, 0, 0x95};

static mz_carried lost(void *context, const mz_wire *wire, mz_reply *reply, mz_news *news) {
    (void)context, (void)wire, (void)reply, (void)news;
    return MZ_LOST;
}

/* Each function of a transaction component answers `code` to this handle, or 0 where it answers a number. */
static void tc_refuses(mz_tc *tc, mz_code code) {
    uint64_t number = 7;
    int flag = 7;
    size_t count;
    mz_asked asked;
    mz_wire wire;
    mz_receipt receipt;
    mz_next stopped;
    mz_event event;
    uint8_t bytes[MZ_EVENT_BYTES], value[MZ_VALUE], piece[256];
    mz_open open;
    mz_lock lock;
    mz_note note = {0, 0, 0};
    const mz_reply reply = {1, 0, MZ_DONE, {0}};
    const mz_news news = {1, 0};
    SEEN(mz_load(tc, "p", answers_0, sizeof answers_0, NULL, 0, 0, &number, NULL) == code);
    SEEN(mz_load_object(tc, answers_0, sizeof answers_0, NULL, NULL) == code);
    SEEN(mz_find(tc, "p", &number) == code);
    SEEN(mz_admit(tc, 0, NULL, 0, &number, NULL, NULL) == code);
    SEEN(mz_blocked(tc, 0, NULL, 0, &flag) == code);
    SEEN(mz_ask(tc, 1, &asked) == code);
    SEEN(mz_undo(tc, 1, &asked) == code);
    SEEN(mz_resend(tc, 1, &wire) == code);
    SEEN(mz_retake(tc, 1, &asked) == code);
    SEEN(mz_answer(tc, 1, &reply) == code);
    SEEN(mz_give_up(tc, 1, &number) == code);
    SEEN(mz_end(tc, 1, &receipt) == code);
    SEEN(mz_open_count(tc) == 0);
    SEEN(mz_open_from(tc, 0, &open) == code && mz_waiting_from(tc, 0, 0, &open) == code);
    SEEN(mz_lock_at(tc, 0, 0, &lock) == code);
    SEEN(mz_result(tc, 1, 0, value, &flag) == code);
    SEEN(mz_low_water(tc) == 0);
    SEEN(mz_last_number(tc) == 0);
    SEEN(mz_noted(tc, 0, &note) == code);
    SEEN(mz_recover(tc, NULL, 0, &note, 1, &number) == code);
    SEEN(mz_file_ahead(tc, &number) == code && mz_file_bytes(tc, piece, &count) == code);
    SEEN(mz_file_back(tc, NULL, 0, &number, NULL) == code);
    SEEN(mz_session(tc) == 0 && mz_set_session(tc, 1) == code);
    SEEN(mz_checkpoint(tc, 0) == code);
    SEEN(mz_site(tc, 0, &number, &flag) == code);
    SEEN(mz_told(tc, 0, &news) == code);
    SEEN(mz_redo_next(tc, 0, &wire, &flag) == code);
    SEEN(mz_redo_some(tc, 0, &wire, 1, &count) == code);
    SEEN(mz_redone(tc, 0, &reply) == code);
    SEEN(mz_redo(tc, 0, lost, NULL, 1, &flag) == code);
    SEEN(mz_run(tc, 1, lost, NULL, 1, &receipt, &stopped) == code);
    SEEN(mz_run_until_over(tc, 1, lost, NULL, 1, &stopped) == code);
    SEEN(mz_log_length(tc) == 0);
    SEEN(mz_log_bytes(tc, 0, bytes) == code);
    SEEN(mz_log_at(tc, 0, &event) == code);
    SEEN(number == 7);
}

static void dc_refuses(mz_dc *dc, mz_code code) {
    uint8_t value[MZ_VALUE];
    int flag;
    mz_said said;
    mz_record record = {0, 0, 1};
    mz_news news;
    mz_wire wire;
    mz_reply reply;
    memset(&wire, 0, sizeof wire);
    wire.number = 1;
    wire.op = MZ_READ;
    SEEN(mz_dc_perform(dc, &wire, &reply) == code);
    SEEN(mz_dc_checkpoint(dc) == code);
    SEEN(mz_dc_hear_mark(dc, 0, 1) == code);
    SEEN(mz_dc_forget(dc, &flag) == code);
    SEEN(mz_dc_restart(dc, &news) == code);
    SEEN(mz_dc_get(dc, &record, &said, value) == code);
    SEEN(mz_dc_rows(dc) == 0);
    SEEN(mz_dc_row(dc, 0, &record, value) == code);
}

static void program_refuses(mz_program *program, mz_code code) {
    mz_stop stop;
    const mz_reply reply = {1, 0, MZ_DONE, {0}};
    SEEN(mz_program_verify(program, answers_0, sizeof answers_0, NULL, 0, 0, NULL) == code);
    SEEN(mz_program_run(program, NULL, 0, &stop) == code);
    SEEN(mz_program_resume(program, &reply, &stop) == code);
}

/* Pointers that have to be there. */
static void pointers(mz_tc *tc, mz_dc *dc, mz_program *program) {
    const mz_code bad = MZ_BAD_ARGUMENT;
    uint64_t number, txn;
    size_t count;
    int flag;
    uint8_t value[MZ_VALUE];
    mz_receipt receipt;
    mz_next stopped;
    mz_stop stop;
    mz_wire wire;
    mz_reply reply;
    SEEN(!mz_tc_new(1, NULL) && !mz_dc_new(1, 1, NULL) && !mz_program_new(NULL));
    SEEN(mz_load(tc, "p", NULL, 16, NULL, 0, 0, &number, NULL) == bad);
    SEEN(mz_load(tc, "p", answers_0, 16, NULL, 1, 0, &number, NULL) == bad);
    SEEN(mz_load(tc, NULL, answers_0, 16, NULL, 0, 0, &number, NULL) == bad);
    SEEN(mz_load(tc, "p", answers_0, 16, NULL, 0, 0, NULL, NULL) == bad);
    SEEN(mz_load_object(tc, NULL, 16, NULL, NULL) == bad && mz_load_object_file(tc, NULL, NULL, NULL) == bad);
    SEEN(mz_find(tc, NULL, &number) == bad && mz_find(tc, "p", NULL) == bad);
    SEEN(mz_admit(tc, 0, NULL, 1, &txn, NULL, NULL) == bad && mz_admit(tc, 0, NULL, 0, NULL, NULL, NULL) == bad);
    SEEN(mz_blocked(tc, 0, NULL, 0, NULL) == bad && mz_ask(tc, 1, NULL) == bad && mz_undo(tc, 1, NULL) == bad);
    SEEN(mz_resend(tc, 1, NULL) == bad && mz_answer(tc, 1, NULL) == bad && mz_end(tc, 1, NULL) == bad);
    SEEN(mz_redo_next(tc, 0, NULL, &flag) == bad && mz_redo_next(tc, 0, &wire, NULL) == bad);
    SEEN(mz_redo_some(tc, 0, NULL, 1, &count) == bad && mz_redo_some(tc, 0, &wire, 1, NULL) == bad);
    SEEN(mz_redo_some(tc, 0, &wire, 0, &count) == bad);
    SEEN(mz_retake(tc, 1, NULL) == bad && mz_open_from(tc, 0, NULL) == bad && mz_waiting_from(tc, 0, 0, NULL) == bad);
    SEEN(mz_lock_at(tc, 0, 0, NULL) == bad && mz_noted(tc, 0, NULL) == bad);
    SEEN(mz_result(tc, 1, 0, NULL, &flag) == bad && mz_result(tc, 1, 0, value, NULL) == bad);
    SEEN(mz_recover(tc, NULL, 1, NULL, 0, NULL) == bad && mz_recover(tc, answers_0, 0, NULL, 1, NULL) == bad);
    SEEN(mz_recover(tc, answers_0, SIZE_MAX, NULL, 0, NULL) == bad);
    SEEN(mz_told(tc, 0, NULL) == bad && mz_redone(tc, 0, NULL) == bad);
    SEEN(mz_log_bytes(tc, 0, NULL) == bad && mz_log_at(tc, 0, NULL) == bad);
    SEEN(mz_run(tc, 1, NULL, NULL, 1, &receipt, &stopped) == bad);
    SEEN(mz_run(tc, 1, lost, NULL, 1, NULL, &stopped) == bad && mz_run(tc, 1, lost, NULL, 1, &receipt, NULL) == bad);
    SEEN(mz_run_until_over(tc, 1, NULL, NULL, 1, &stopped) == bad && mz_run_until_over(tc, 1, lost, NULL, 1, NULL) == bad);
    SEEN(mz_run_until_over(tc, 1, lost, NULL, 0, &stopped) == bad);
    SEEN(mz_run(tc, 1, lost, NULL, 0, &receipt, &stopped) == bad && mz_redo(tc, 0, lost, NULL, 0, &flag) == bad);
    SEEN(mz_redo(tc, 0, NULL, NULL, 1, &flag) == bad && mz_redo(tc, 0, lost, NULL, 1, NULL) == bad);
    SEEN(mz_dc_perform(dc, NULL, &reply) == bad && mz_dc_perform(dc, &wire, NULL) == bad);
    SEEN(mz_dc_forget(dc, NULL) == bad && mz_dc_restart(dc, NULL) == bad);
    SEEN(mz_dc_get(dc, NULL, NULL, NULL) == bad && mz_dc_row(dc, 0, NULL, NULL) == bad);
    SEEN(mz_program_verify(program, NULL, 16, NULL, 0, 0, NULL) == bad);
    SEEN(mz_program_run(program, NULL, 0, NULL) == bad && mz_program_resume(program, NULL, &stop) == bad);
    SEEN(mz_open_count(tc) == 0 && mz_log_length(tc) == 0 && mz_dc_rows(dc) == 0);
}

int main(void) {
    mz_code code;
    uint64_t number = 0;
    mz_stop stop;
    mz_tc *tc = mz_tc_new(1, &code);
    mz_dc *dc = mz_dc_new(10, 10, &code);
    mz_program *program = mz_program_new(&code);
    if (!tc || !dc || !program) return 2;
    SEEN(!mz_dc_new(65537, 10, &code) && code == MZ_BAD_ARGUMENT);
    tc_refuses(NULL, MZ_BAD_ARGUMENT);
    dc_refuses(NULL, MZ_BAD_ARGUMENT);
    program_refuses(NULL, MZ_BAD_ARGUMENT);
    pointers(tc, dc, program);
    tc_refuses((mz_tc *)(void *)dc, MZ_NO_SUCH_CALL);
    tc_refuses((mz_tc *)(void *)program, MZ_NO_SUCH_CALL);
    dc_refuses((mz_dc *)(void *)tc, MZ_NO_SUCH_CALL);
    dc_refuses((mz_dc *)(void *)program, MZ_NO_SUCH_CALL);
    program_refuses((mz_program *)(void *)tc, MZ_NO_SUCH_CALL);
    program_refuses((mz_program *)(void *)dc, MZ_NO_SUCH_CALL);
    mz_tc_free((mz_tc *)(void *)dc);
    mz_dc_free((mz_dc *)(void *)program);
    mz_program_free((mz_program *)(void *)tc);
    /* none of it did anything: each is what it was, and open */
    SEEN(mz_load(tc, "p", answers_0, sizeof answers_0, NULL, 0, 0, &number, NULL) == MZ_OK && number == 0);
    SEEN(mz_dc_checkpoint(dc) == MZ_OK);
    SEEN(mz_program_verify(program, answers_0, sizeof answers_0, NULL, 0, 0, NULL) == MZ_OK);
    SEEN(mz_program_run(program, NULL, 0, &stop) == MZ_OK && !stop.op && stop.value == 0 && stop.executed == 2);
    mz_tc_free(tc);
    mz_dc_free(dc);
    mz_program_free(program);
#ifdef MEMORY_STAYS
    tc_refuses(tc, MZ_NO_SUCH_CALL);
    dc_refuses(dc, MZ_NO_SUCH_CALL);
    program_refuses(program, MZ_NO_SUCH_CALL);
    mz_tc_free(tc);
    mz_dc_free(dc);
    mz_program_free(program);
#endif
    mz_tc_free(NULL);
    mz_dc_free(NULL);
    mz_program_free(NULL);
    printf("misuse: %s\n", failures ? "NOT ALL refused" : "refused");
    return failures != 0;
}
