/* A data component that says what can't be, and which wires undo. A redo that is answered otherwise than the log says is
 * MZ_DIVERGED, with its number, of mz_redone, mz_redo and mz_run alike; what is open and answered Old is MZ_DEPOSED, and
 * answered by what no operation of its kind is answered MZ_DIVERGED. Nothing is lost by it: the right answer is taken. */
#include "mazzulpe_object.h"
#include "deleting.h"
#include "seen.h"

enum { DCS = 2, TRIES = 3 };

/* said: what the data component says to a wire in place of the right answer, where it isn't 0; becomes: what becomes of a wire in
 * place of its being carried; session: in place of the wire's. */
typedef struct { mz_tc *tc; mz_dc *dc; mz_said said; int carried, loses; mz_carried becomes; mz_wire last; uint64_t session; } bank;

static mz_carried carry(void *context, const mz_wire *wire, mz_reply *reply, mz_news *news) {
    bank *b = (bank *)context;
    (void)news;
    b->carried++;
    b->last = *wire;
    if (b->loses) return MZ_LOST;
    if (b->becomes) return b->becomes;
    mz_wire sent = *wire;
    if (b->session) sent.session = b->session;
    mz_code c = mz_dc_perform(b->dc, &sent, reply);
    if (c != MZ_OK) return c == MZ_DEPOSED ? MZ_RETIRED : MZ_LOST;
    if (b->said) reply->said = b->said;
    return MZ_REPLIED;
}

static void started(bank *b) {
    mz_code c;
    memset(b, 0, sizeof *b);
    b->tc = mz_tc_new(DCS, &c);
    b->dc = mz_dc_new(100, 1000, &c);
    if (!b->tc || !b->dc || mz_load_object_file(b->tc, "build/bank.o", NULL, NULL) != MZ_OK) exit(2);
}

static void closed(bank *b) {
    mz_tc_free(b->tc);
    mz_dc_free(b->dc);
}

static uint64_t admitted(bank *b, uint64_t procedure, size_t count) {
    const uint64_t args[] = {1, 10};
    uint64_t txn = 0;
    SEEN(mz_admit(b->tc, procedure, args, count, &txn, NULL, NULL) == MZ_OK);
    return txn;
}

static mz_code ran(bank *b, uint64_t txn, mz_next *stopped) {
    mz_receipt receipt;
    b->carried = 0;
    return mz_run(b->tc, txn, carry, b, TRIES, &receipt, stopped);
}

/* The number of the reply that was refused last, at data component 0, or 0. */
static uint64_t refused(bank *b) {
    uint16_t dc = 9;
    mz_reply reply;
    return mz_refused_reply(b->tc, &dc, &reply) == MZ_OK && dc == 0 ? reply.number : 0;
}

/* A deposit is a read and an insert; behind its loss the insert is redone, under number 2. */
static void diverges(void) {
    bank b;
    mz_news news;
    mz_next stopped;
    mz_wire wire;
    mz_reply reply;
    int up = 0;
    started(&b);
    uint64_t txn = admitted(&b, 0, 2);
    SEEN(ran(&b, txn, &stopped) == MZ_OK && stopped == MZ_OVER && mz_refused_reply(b.tc, NULL, NULL) == MZ_NO_PLACE);
    SEEN(mz_dc_restart(b.dc, &news) == MZ_OK && mz_told(b.tc, 0, &news) == MZ_OK);
    b.said = MZ_DUPLICATE;
    SEEN(mz_redo(b.tc, 0, carry, &b, TRIES, &up) == MZ_DIVERGED && !up && b.carried == 3 && refused(&b) == 2);
    txn = admitted(&b, 0, 2);
    SEEN(ran(&b, txn, &stopped) == MZ_DIVERGED && refused(&b) == 2 && mz_open_count(b.tc) == 1);
    b.said = MZ_OLD;
    SEEN(mz_redo(b.tc, 0, carry, &b, TRIES, &up) == MZ_DEPOSED && !up);
    SEEN(mz_redo_next(b.tc, 0, &wire, &up) == MZ_OK && !up && wire.number == 2 && !wire.undoes && wire.redo);
    SEEN(mz_dc_perform(b.dc, &wire, &reply) == MZ_OK);
    reply.incarnation++;
    SEEN(mz_redone(b.tc, 0, &reply) == MZ_STRANGER && mz_redone(b.tc, 1, &reply) == MZ_STRANGER);
    reply.incarnation--, reply.number++;
    SEEN(mz_redone(b.tc, 0, &reply) == MZ_STRANGER);
    reply.number--;
    SEEN(mz_redone(b.tc, 0, &reply) == MZ_OK && mz_redone(b.tc, 0, &reply) == MZ_STRANGER);
    b.said = (mz_said)0;
    SEEN(ran(&b, txn, &stopped) == MZ_OK && stopped == MZ_OVER && mz_open_count(b.tc) == 0);
    closed(&b);
}

static void deposed(void) {
    bank b;
    mz_next stopped;
    mz_asked asked;
    mz_reply reply;
    started(&b);
    uint64_t txn = admitted(&b, 0, 2);
    SEEN(mz_ask(b.tc, txn, &asked) == MZ_OK && asked.next == MZ_REQUEST && mz_dc_perform(b.dc, &asked.wire, &reply) == MZ_OK);
    mz_reply other = reply;
    other.number++, other.said = MZ_OLD;
    SEEN(mz_answer(b.tc, txn, &other) == MZ_STRANGER && refused(&b) == 0);
    other.number--;
    SEEN(mz_answer(b.tc, txn, &other) == MZ_DEPOSED && refused(&b) == reply.number);
    other.said = MZ_DONE_WAS;
    SEEN(mz_answer(b.tc, txn, &other) == MZ_DIVERGED);
    other.incarnation++;
    SEEN(mz_answer(b.tc, txn, &other) == MZ_STRANGER);
    b.said = MZ_OLD;
    SEEN(ran(&b, txn, &stopped) == MZ_DEPOSED && b.carried == 1 && refused(&b) == 1);
    b.said = MZ_DONE;
    SEEN(ran(&b, txn, &stopped) == MZ_DIVERGED && b.carried == 1);
    b.said = (mz_said)0;
    SEEN(ran(&b, txn, &stopped) == MZ_OK && stopped == MZ_OVER);
    closed(&b);
}

/* Another session's wires, at the library's component; and a log that failed. */
static void not_carried(void) {
    bank b;
    mz_news news;
    mz_next stopped;
    int up = 0;
    started(&b);
    SEEN(mz_set_session(b.tc, 5) == MZ_OK && mz_dc_begin(b.dc, 5) == MZ_OK && mz_dc_begin(b.dc, 5) == MZ_OK && mz_dc_begin(b.dc, 6) == MZ_BEGUN);
    uint64_t txn = admitted(&b, 0, 2);
    b.becomes = MZ_UNWRITTEN;
    SEEN(ran(&b, txn, &stopped) == MZ_LOG_FAILED && b.carried == 1 && mz_refused_reply(b.tc, NULL, NULL) == MZ_NO_PLACE);
    b.becomes = MZ_LOST;
    SEEN(ran(&b, txn, &stopped) == MZ_OK && stopped == MZ_OVER && mz_dc_rows(b.dc) == 1);
    b.session = 6;
    txn = admitted(&b, 0, 2);
    SEEN(ran(&b, txn, &stopped) == MZ_DEPOSED && b.carried == 1 && refused(&b) == 3 && mz_open_count(b.tc) == 1);
    SEEN(mz_dc_restart(b.dc, &news) == MZ_OK && mz_told(b.tc, 0, &news) == MZ_OK);
    SEEN(mz_redo(b.tc, 0, carry, &b, TRIES, &up) == MZ_DEPOSED && !up && refused(&b) == 2);
    b.becomes = MZ_UNWRITTEN;
    SEEN(mz_redo(b.tc, 0, carry, &b, TRIES, &up) == MZ_LOG_FAILED && !up && mz_dc_rows(b.dc) == 0);
    closed(&b);
}

/* A log comes back in another transaction component, with the undo open. */
static mz_tc *recovered(bank *b) {
    static uint8_t rows[100][MZ_EVENT_BYTES];
    const mz_note notes[DCS] = {{0, 0, 0}, {0, 0, 0}};
    uint64_t number, count = mz_log_length(b->tc);
    mz_code c;
    mz_tc *tc = mz_tc_new(DCS, &c);
    if (!tc || mz_load_object_file(tc, "build/bank.o", NULL, NULL) != MZ_OK || load_deleting(tc, &number) != MZ_OK) exit(2);
    for (uint64_t i = 0; i < count; i++) SEEN(mz_log_bytes(b->tc, i, rows[i]) == MZ_OK);
    SEEN(mz_recover(tc, rows, (size_t)count, notes, DCS, NULL) == MZ_OK);
    return tc;
}

/* Among others that are open, so that it is looked for; and in a component that is full of records. */
static void undoes(void) {
    bank b;
    mz_asked asked;
    mz_next stopped;
    mz_wire wire;
    mz_code c;
    uint64_t deleting = 0, other = 0;
    started(&b);
    SEEN(load_deleting(b.tc, &deleting) == MZ_OK && ran(&b, admitted(&b, 0, 2), &stopped) == MZ_OK);
    uint64_t txn = admitted(&b, deleting, 0);
    SEEN(mz_ask(b.tc, txn, &asked) == MZ_OK && asked.next == MZ_REQUEST && !asked.wire.undoes);
    SEEN(mz_resend(b.tc, txn, &wire) == MZ_OK && !wire.undoes && mz_retake(b.tc, txn, &asked) == MZ_OK && !asked.wire.undoes);
    b.loses = 1;
    SEEN(ran(&b, txn, &stopped) == MZ_OK && stopped == MZ_WAITS);
    SEEN(mz_dc_perform(b.dc, &wire, &(mz_reply){0, 0, MZ_DONE, {0}}) == MZ_OK);
    b.loses = 0;
    for (uint64_t k = 2; k < 20; k++) {
        const uint64_t args[] = {k, 10};
        SEEN(mz_admit(b.tc, 0, args, 2, &other, NULL, NULL) == MZ_OK && mz_ask(b.tc, other, &asked) == MZ_OK);
        SEEN(!asked.wire.undoes && mz_resend(b.tc, other, &wire) == MZ_OK && !wire.undoes && wire.number == asked.wire.number);
        if (k == 9) SEEN(ran(&b, txn, &stopped) == MZ_OK && stopped == MZ_OVER && b.last.undoes && b.last.op == MZ_INSERT);
    }
    txn = admitted(&b, deleting, 0);
    SEEN(mz_ask(b.tc, txn, &asked) == MZ_OK && !asked.wire.undoes);
    b.loses = 0;
    mz_reply reply;
    SEEN(mz_dc_perform(b.dc, &asked.wire, &reply) == MZ_OK && mz_answer(b.tc, txn, &reply) == MZ_OK);
    b.loses = 1;
    SEEN(ran(&b, txn, &stopped) == MZ_OK && stopped == MZ_UNDOING && b.carried == TRIES && b.last.undoes);
    SEEN(mz_resend(b.tc, txn, &wire) == MZ_OK && wire.undoes && mz_retake(b.tc, txn, &asked) == MZ_OK && asked.wire.undoes);
    mz_tc *tc = recovered(&b);
    SEEN(mz_retake(tc, txn, &asked) == MZ_OK && asked.wire.undoes && mz_resend(tc, txn, &wire) == MZ_OK && wire.undoes);
    SEEN(mz_retake(tc, other, &asked) == MZ_OK && !asked.wire.undoes);
    mz_dc *full = mz_dc_new(0, 10, &c);
    SEEN(full && mz_dc_perform(full, &wire, &reply) == MZ_OK && reply.said == MZ_DONE);
    SEEN(mz_dc_perform(full, &asked.wire, &reply) == MZ_OK && asked.wire.op == MZ_READ && mz_dc_rows(full) == 1);
    mz_dc_free(full);
    mz_tc_free(tc);
    closed(&b);
}

int main(void) {
    diverges();
    deposed();
    undoes();
    not_carried();
    printf("diverged: %s\n", failures ? "NOT as it has to be" : "told with its number, and what undoes says so");
    return failures != 0;
}
