/* A bank dies between two rows of its log, at each of them, and comes back from the rows that it kept: the rows are
 * in an array, and its storage outlives it or has lost what came after its checkpoint; then in a file, of a process
 * that is killed, whose storage is lost with it. What was open ends, and no money is lost or made. A changed row is
 * refused with its place, and so is what can't come back. */
#define _POSIX_C_SOURCE 200809L
#include "mazzulpe_object.h"
#include "seen.h"
#include <signal.h>
#include <stdio.h>
#include <sys/types.h>
#include <sys/wait.h>
#include <unistd.h>

enum { DCS = 2, CALLS = 40, AT_ONCE = 3, ROWS = 1000, ACCOUNTS = 4, TRIES = 3, HALF = CALLS / 2 };

/* How far a call is. */
typedef struct { int open, undoing, carried; uint64_t txn; mz_asked asked; mz_reply reply; } called;

typedef struct {
    mz_tc *tc;
    mz_dc *dcs[DCS];
    uint8_t rows[ROWS][MZ_EVENT_BYTES]; /* what is kept of the log that is going on */
    size_t kept, kept_ever;
    size_t left; /* it dies behind so many rows */
    int before;  /* 1: only before it would keep one more, so that it does all in between */
    int dead, cuts;
    FILE *file; /* where the rows are kept too */
} bank;

static void started(bank *b, mz_dc *const *dcs) {
    mz_code code;
    b->tc = mz_tc_new(DCS, &code);
    for (int d = 0; d < DCS; d++) b->dcs[d] = dcs ? dcs[d] : mz_dc_new(100, 1000, &code);
    if (!b->tc || !b->dcs[0] || !b->dcs[1] || mz_load_object_file(b->tc, "build/bank.o", NULL, NULL) != MZ_OK) exit(2);
}

static void closed(bank *b) {
    for (int d = 0; d < DCS; d++) mz_dc_free(b->dcs[d]);
    mz_tc_free(b->tc);
}

/* ---- the bank at work, which keeps each row before it does anything more */

static void keep(bank *b) {
    while (!b->dead && b->kept < mz_log_length(b->tc)) {
        b->dead = b->before && b->kept_ever == b->left;
        if (b->dead || b->kept == ROWS) return;
        SEEN(mz_log_bytes(b->tc, b->kept, b->rows[b->kept]) == MZ_OK);
        if (b->file && (fwrite(b->rows[b->kept], MZ_EVENT_BYTES, 1, b->file) != 1 || fflush(b->file))) exit(2);
        b->kept++;
        b->dead = ++b->kept_ever == b->left && !b->before;
    }
}

static void admitted(bank *b, called *c, int call) {
    static const char *const names[] = {"deposit_here", "deposit_there", "move", "move_back", "touch", "move"};
    int which = call < 2 * ACCOUNTS ? call % 2 : call % 6;
    uint64_t from = (uint64_t)(call / 2 % ACCOUNTS), amount = (uint64_t)(10 + call), procedure = 0;
    const uint64_t two[] = {from, amount}, three[] = {from, (from + 1) % ACCOUNTS, amount % 17 + 1};
    size_t count = which == 4 ? 1 : which < 2 ? 2 : 3;
    SEEN(mz_find(b->tc, names[which], &procedure) == MZ_OK);
    memset(c, 0, sizeof *c);
    c->open = mz_admit(b->tc, procedure, count == 3 ? three : two, count, &c->txn, NULL, NULL) == MZ_OK;
}

/* One step of a call: to ask, to carry, to answer or to end. */
static void stepped(bank *b, called *c) {
    mz_receipt receipt;
    if (c->asked.next == MZ_REQUEST && !c->carried) {
        c->carried = mz_dc_perform(b->dcs[c->asked.wire.record.dc], &c->asked.wire, &c->reply) == MZ_OK;
        SEEN(c->carried);
    } else if (c->asked.next == MZ_REQUEST) {
        SEEN(mz_answer(b->tc, c->txn, &c->reply) == MZ_OK);
        c->carried = 0;
        c->asked.next = MZ_RUNNING;
    } else if (c->asked.next == MZ_OVER) {
        SEEN(mz_end(b->tc, c->txn, &receipt) == MZ_OK);
        c->open = 0;
    } else {
        c->undoing |= c->asked.next == MZ_UNDOING;
        SEEN((c->undoing ? mz_undo : mz_ask)(b->tc, c->txn, &c->asked) == MZ_OK);
    }
    keep(b);
}

/* The log begins anew, and with it what is kept. */
static void cut(bank *b) {
    uint64_t mark = mz_low_water(b->tc), incarnation = 0;
    size_t kept = b->kept;
    SEEN(mark == mz_last_number(b->tc));
    for (int d = 0; d < DCS; d++) {
        SEEN(mz_site(b->tc, (uint16_t)d, &incarnation, NULL) == MZ_OK);
        SEEN(mz_dc_hear_mark(b->dcs[d], incarnation, mark) == MZ_OK && mz_dc_checkpoint(b->dcs[d]) == MZ_OK);
    }
    SEEN(mz_checkpoint(b->tc, mark) == MZ_OK);
    b->kept = 0;
    keep(b);
    if (b->kept) b->cuts = 0;
    else b->kept = kept; /* it died with its old log */
}

/* Runs all calls, some at once; it stops where it dies. */
static void ran(bank *b) {
    called open[AT_ONCE];
    int next = 0, many = 1;
    memset(open, 0, sizeof open);
    for (size_t turn = 0; !b->dead && (next < CALLS || many); turn++) {
        many = 0;
        for (int i = 0; i < AT_ONCE; i++) many += open[i].open;
        if (b->cuts && next == HALF && !many) cut(b);
        called *c = &open[turn % AT_ONCE];
        if (c->open) stepped(b, c);
        else if (next < CALLS && !(b->cuts && next == HALF)) {
            admitted(b, c, next);
            next += c->open;
            keep(b);
        }
    }
}

/* ---- back from the rows */

static mz_carried carry(void *context, const mz_wire *wire, mz_reply *reply, mz_news *news) {
    bank *b = (bank *)context;
    (void)news;
    return mz_dc_perform(b->dcs[wire->record.dc], wire, reply) == MZ_OK ? MZ_REPLIED : MZ_LOST;
}

/* The number under which the transaction's last operation was sent, and whether that waits. */
static uint64_t last_sent(bank *b, uint64_t txn, int *waits) {
    uint64_t number = 0;
    mz_event event;
    *waits = 0;
    for (uint64_t place = 0; mz_log_at(b->tc, place, &event) == MZ_OK; place++) {
        if (event.txn != txn || event.kind == MZ_EVENT_ADMIT || event.kind == MZ_EVENT_CHECKPOINT) continue;
        *waits = event.kind == MZ_EVENT_ASK || event.kind == MZ_EVENT_UNDO;
        if (*waits) number = event.number;
    }
    return number;
}

/* Each open transaction goes on to its end. */
static void went_on(bank *b) {
    mz_open open;
    mz_asked asked;
    mz_receipt receipt;
    mz_next stopped;
    uint64_t count = mz_open_count(b->tc), met = 0;
    for (uint64_t place = 0; mz_open_from(b->tc, place, &open) == MZ_OK; place = open.place + 1, met++) {
        int waits;
        uint64_t number = last_sent(b, open.txn, &waits);
        SEEN(open.waits == waits && !open.held && !open.stranded && (!waits || open.number == number));
        mz_code code = mz_retake(b->tc, open.txn, &asked);
        SEEN(code == (waits ? MZ_OK : MZ_NOTHING_OPEN));
        if (code == MZ_OK) SEEN(asked.next == MZ_REQUEST && asked.wire.number == number);
        SEEN(mz_run(b->tc, open.txn, carry, b, TRIES, &receipt, &stopped) == MZ_OK && stopped == MZ_OVER);
    }
    SEEN(met == count && mz_open_count(b->tc) == 0 && mz_last_number(b->tc) == mz_low_water(b->tc));
}

/* What is in all accounts, less what committed deposits of this log brought there. */
static int64_t made(bank *b) {
    static uint64_t amounts[ROWS];
    int64_t sum = 0;
    mz_event event;
    for (uint64_t place = 0; mz_log_at(b->tc, place, &event) == MZ_OK; place++) {
        if (event.kind == MZ_EVENT_ADMIT) amounts[event.txn] = event.procedure < 2 ? event.args[1] : 0;
        if (event.kind == MZ_EVENT_END && event.outcome == MZ_COMMITTED) sum -= (int64_t)amounts[event.txn];
    }
    for (int d = 0; d < DCS; d++)
        for (uint64_t i = 0; i < mz_dc_rows(b->dcs[d]); i++) {
            mz_record record;
            uint8_t value[MZ_VALUE];
            SEEN(mz_dc_row(b->dcs[d], i, &record, value) == MZ_OK);
            sum += (int64_t)mz_little(value, 8);
        }
    return sum;
}

/* What is known of storage that outlived the bank, or that restarts and loses what came after its checkpoint. */
static void noted(bank *b, int restarts, mz_note *notes) {
    memset(notes, 0, DCS * sizeof *notes);
    for (int d = 0; restarts && d < DCS; d++) {
        mz_news news = {0, 0};
        SEEN(mz_dc_restart(b->dcs[d], &news) == MZ_OK);
        notes[d].incarnation = news.incarnation;
        notes[d].mark = news.mark;
        notes[d].down = 1;
    }
}

/* A new component over the storage of a bank that died comes back from its rows. */
static void came_back(const bank *died, int restarts, int64_t before) {
    static bank b;
    mz_note notes[DCS], again = {0, 0, 0};
    uint64_t place;
    memset(&b, 0, sizeof b);
    started(&b, died->dcs);
    noted(&b, restarts, notes);
    SEEN(mz_recover(b.tc, died->rows, died->kept, notes, DCS, NULL) == MZ_OK);
    SEEN(mz_log_length(b.tc) == died->kept);
    if (died->kept) SEEN(mz_recover(b.tc, died->rows, died->kept, notes, DCS, &place) == MZ_BEGUN && place == 0);
    for (int d = 0; d < DCS; d++) {
        int up = 1;
        SEEN(mz_noted(b.tc, (uint16_t)d, &again) == MZ_OK && again.down == restarts);
        SEEN(again.incarnation == notes[d].incarnation && again.mark == notes[d].mark);
        if (restarts) SEEN(mz_redo(b.tc, (uint16_t)d, carry, &b, TRIES, &up) == MZ_OK && up);
    }
    went_on(&b);
    SEEN(made(&b) == before);
    mz_tc_free(b.tc);
}

static bank b;

/* It dies at this row, in this way; what the accounts have from before the log began anew is in *before. */
static int died_at(size_t left, int before_next, int cuts) {
    memset(&b, 0, sizeof b);
    b.left = left;
    b.before = before_next;
    b.cuts = cuts;
    started(&b, NULL);
    ran(&b);
    return b.dead;
}

/* ---- refusals */

static mz_code refused(bank *died, size_t count, const mz_note *notes, size_t note_count, uint64_t *place) {
    mz_code code = mz_recover(died->tc, died->rows, count, notes, note_count, place);
    SEEN(mz_log_length(died->tc) == 0 && mz_open_count(died->tc) == 0);
    return code;
}

/* Each row in turn is changed: one that is no event's, and a number that wasn't given out there. */
static void changed_rows(bank *died, const mz_note *notes) {
    for (size_t i = 0; i < died->kept; i++) {
        uint8_t *row = died->rows[i], kind = row[0];
        uint64_t place = 0;
        row[0] = 9;
        SEEN(refused(died, died->kept, notes, DCS, &place) == MZ_NO_EVENT && place == i);
        row[0] = kind;
        if (kind != MZ_EVENT_ASK && kind != MZ_EVENT_ANSWER && kind != MZ_EVENT_UNDO) continue;
        row[16] ^= 1;
        SEEN(refused(died, died->kept, notes, DCS, &place) == MZ_LOG_ILLEGAL && place == i);
        row[16] ^= 1;
    }
}

/* On a component to which nothing has happened, which comes back behind all of this. */
static void refusals(int cuts) {
    mz_note notes[DCS + 1];
    mz_code code;
    uint64_t place;
    memset(notes, 0, sizeof notes);
    SEEN(!died_at(ROWS, 0, cuts));
    mz_tc_free(b.tc);
    b.tc = mz_tc_new(DCS, &code);
    SEEN(refused(&b, b.kept, notes, DCS, &place) == MZ_LOG_ILLEGAL && place == (cuts ? 1u : 0u));
    SEEN(mz_load_object_file(b.tc, "build/bank.o", NULL, NULL) == MZ_OK);
    changed_rows(&b, notes);
    SEEN(refused(&b, b.kept, notes, DCS - 1, &place) == MZ_NOTE_COUNT && place == 0);
    SEEN(refused(&b, b.kept, notes, DCS + 1, NULL) == MZ_NOTE_COUNT);
    SEEN(refused(&b, b.kept, NULL, DCS, NULL) == MZ_BAD_ARGUMENT && refused(&b, 1, NULL, 0, NULL) == MZ_NOTE_COUNT);
    notes[1].down = 1;
    notes[1].incarnation = 1;
    if (cuts) SEEN(refused(&b, b.kept, notes, DCS, &place) == MZ_FORGOTTEN && place == 1);
    notes[1].down = 0;
    SEEN(mz_recover(b.tc, b.rows, b.kept, notes, DCS, NULL) == MZ_OK);
    SEEN(mz_open_count(b.tc) == 0 && mz_low_water(b.tc) == mz_last_number(b.tc));
    closed(&b);
}

/* ---- a request taken up again that was given up */

static void taken_up(void) {
    called c;
    mz_asked asked, again;
    mz_open open;
    mz_receipt receipt;
    mz_next stopped;
    uint64_t number = 0;
    memset(&b, 0, sizeof b);
    b.left = ROWS;
    started(&b, NULL);
    SEEN(mz_open_from(b.tc, 0, &open) == MZ_NO_PLACE && mz_retake(b.tc, 1, &asked) == MZ_NO_TXN);
    admitted(&b, &c, 0);
    SEEN(mz_retake(b.tc, c.txn, &asked) == MZ_NOTHING_OPEN && mz_ask(b.tc, c.txn, &asked) == MZ_OK);
    SEEN(mz_open_from(b.tc, 0, &open) == MZ_OK && open.held && open.number == 1 && open.op == MZ_READ);
    SEEN(mz_retake(b.tc, c.txn, &again) == MZ_OK && again.next == MZ_REQUEST && again.wire.number == 1);
    SEEN(mz_give_up(b.tc, c.txn, &number) == MZ_OK && number == 1 && mz_give_up(b.tc, c.txn, NULL) == MZ_NOTHING_OPEN);
    SEEN(mz_open_from(b.tc, 0, &open) == MZ_OK && open.waits && !open.held && open.txn == c.txn && open.place == 0);
    SEEN(mz_run(b.tc, c.txn, carry, &b, TRIES, &receipt, &stopped) == MZ_OK && stopped == MZ_WAITS);
    SEEN(mz_retake(b.tc, c.txn, &again) == MZ_OK && again.wire.number == 1);
    SEEN(mz_run(b.tc, c.txn, carry, &b, TRIES, &receipt, &stopped) == MZ_OK && stopped == MZ_OVER);
    SEEN(mz_open_from(b.tc, 0, &open) == MZ_NO_PLACE && made(&b) == 0);
    closed(&b);
}

/* ---- a process that is killed */

static void killed_at(size_t left, const char *name) {
    pid_t child = fork();
    int status;
    if (child == 0) {
        memset(&b, 0, sizeof b);
        b.left = left;
        b.file = fopen(name, "wb");
        if (!b.file) _exit(2);
        started(&b, NULL);
        ran(&b);
        kill(getpid(), SIGKILL);
    }
    SEEN(child > 0 && waitpid(child, &status, 0) == child && WIFSIGNALED(status) && WTERMSIG(status) == SIGKILL);
    memset(&b, 0, sizeof b);
    FILE *file = fopen(name, "rb");
    if (!file) exit(2);
    b.kept = fread(b.rows, MZ_EVENT_BYTES, ROWS, file);
    fclose(file);
    SEEN(b.kept == left);
    started(&b, NULL);
    came_back(&b, 1, 0);
    closed(&b);
}

int main(void) {
    size_t deaths = 0, rows = 0;
    int64_t before = 0;
    for (int cuts = 0; cuts < 2; cuts++)
        for (int way = 0; way < 4; way++)
            for (size_t left = 1;; left++) {
                int dies = died_at(left, way & 1, cuts);
                if (b.cuts == cuts) before = 0;
                else if (b.kept == 1) before = made(&b);
                came_back(&b, way >> 1, before);
                deaths += (size_t)dies;
                rows = b.kept_ever;
                closed(&b);
                if (!dies) break;
            }
    SEEN(rows >= 300);
    refusals(0);
    refusals(1);
    taken_up();
    for (size_t left = 5; left < 300; left += 37) killed_at(left, "build/rows");
    printf("recover: %s; a log of %lu events, %lu deaths\n", failures ? "NOT as it has to be" : "each prefix comes back",
           (unsigned long)rows, (unsigned long)deaths);
    return failures != 0;
}
