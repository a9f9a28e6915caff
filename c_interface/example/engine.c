/* An engine that keeps its log in a file and comes back from it, however often it is killed: one thread, its
 * accounts in memory, a checkpoint behind each so many transfers. Its file is what a checkpoint left (a mark and
 * the accounts), and behind it the rows of the log since.
 *
 *     engine OBJECT FILE TRANSFERS BETWEEN KILLS    runs itself, ends it by SIGKILL so often, and looks what came back
 *
 * Account 1 opens with TRANSFERS; each transfer takes 1 from it, so the sum of the others is how many there were. */
#define _GNU_SOURCE
#include "mazzulpe_object.h"
#include "array_dc.h"
#include "kept_log.h"
#include "killed.h"
#include <sys/resource.h>

/* A transfer's EVENTS: admitted, two reads and two updates asked and answered, ended. */
enum { DCS = 2, GROUP = 64, TRIES = 1, EVENTS = 10, MOST = 60000 };

/* What the parent sees of its child. */
typedef struct { watched life; volatile uint64_t told, early, last; } seen;

typedef struct {
    mz_tc *tc;
    kept_log log;
    array_dc storage;
    array_image image;
    seen *seen;
    const char *object, *path;
    uint64_t procedures[2], transfers, between;
} engine;

static mz_carried carry(void *context, const mz_wire *w, mz_reply *reply, mz_news *news) {
    (void)news;
    return array_perform((array_dc *)context, w, reply);
}

static uint64_t sum_of_others(const engine *e) {
    uint64_t sum = 0;
    for (int i = 0; i < ACCOUNTS; i++)
        if (i != 1 && e->image.accounts[i].there) sum += mz_little(e->image.accounts[i].value, 8);
    return sum;
}

/* The log begins anew, and the file. */
static void checkpoint(engine *e) {
    e->seen->life.in_checkpoint = 1;
    e->image.mark = mz_low_water(e->tc);
    mz_code c = mz_checkpoint(e->tc, e->image.mark);
    if (c != MZ_OK) die("mz_checkpoint", c);
    log_begin(&e->log);
    log_sync(&e->log);
    log_swap(&e->log);
    e->seen->life.checkpoints++;
    e->seen->life.in_checkpoint = 0;
}

static void call(engine *e, int which, const uint64_t *args, size_t count) {
    uint64_t txn = 0;
    mz_receipt receipt;
    mz_next stopped;
    mz_code c = mz_admit(e->tc, e->procedures[which], args, count, &txn, NULL, NULL);
    if (c == MZ_OK) c = mz_run(e->tc, txn, carry, &e->storage, TRIES, &receipt, &stopped);
    if (c != MZ_OK || stopped != MZ_OVER || receipt.outcome != MZ_COMMITTED) die("call", c);
}

/* What was open when it died goes on to its end. */
static void end_open(engine *e) {
    mz_open open;
    mz_asked asked;
    mz_receipt receipt;
    mz_next stopped;
    for (uint64_t place = 0; mz_open_from(e->tc, place, &open) == MZ_OK; place = open.place + 1) {
        mz_code c = mz_retake(e->tc, open.txn, &asked);
        if (c == MZ_OK || c == MZ_NOTHING_OPEN) c = mz_run(e->tc, open.txn, carry, &e->storage, TRIES, &receipt, &stopped);
        if (c != MZ_OK || stopped != MZ_OVER) die("an open transaction", c);
    }
}

/* Comes back from its file: the storage has what the checkpoint left, and all since is redone. */
static void come_back(engine *e) {
    size_t count = 0;
    int up = 0;
    uint8_t *rows = log_read(&e->log, &count);
    e->storage.incarnation = 1;
    /* data component 0 has lost what came behind its mark; no call of this engine goes to 1 */
    const mz_note notes[DCS] = {{1, e->image.mark, 1}, {0, 0, 0}};
    mz_code c = mz_recover(e->tc, rows, count, notes, DCS, NULL);
    if (c != MZ_OK) die("mz_recover", c);
    free(rows);
    c = mz_redo(e->tc, 0, carry, &e->storage, TRIES, &up);
    if (c != MZ_OK || !up) die("mz_redo", c);
    end_open(e);
    if (!e->image.accounts[1].there) {
        uint64_t first[] = {1, e->transfers};
        call(e, 0, first, 2);
        log_keep(&e->log);
        checkpoint(e);
    }
    log_keep(&e->log);
}

static void loaded(engine *e) {
    mz_code c;
    e->tc = mz_tc_new(DCS, &c);
    if (!e->tc) die("mz_tc_new", c);
    e->storage.now = &e->image;
    e->log.image = &e->image;
    e->log.image_bytes = sizeof e->image;
    log_open(&e->log, e->tc, e->path);
    c = mz_load_object_file(e->tc, e->object, NULL, NULL);
    if (c == MZ_OK) c = mz_find(e->tc, "deposit_here", &e->procedures[0]);
    if (c == MZ_OK) c = mz_find(e->tc, "move_here", &e->procedures[1]);
    if (c != MZ_OK) die(e->object, c);
}

static int live(void *context, int last) {
    engine *e = (engine *)context;
    (void)last; /* each makes all that is left */
    e->seen->early = 0;
    loaded(e);
    come_back(e);
    uint64_t done = sum_of_others(e);
    if (done < e->seen->told) return 3;
    for (; done < e->transfers;) {
        uint64_t args[] = {1, 2 + done * 7919 % (ACCOUNTS - 2), 1};
        call(e, 1, args, 3);
        done++;
        if (done % GROUP && done < e->transfers) continue;
        log_keep(&e->log);
        e->seen->told = done;
        /* By what the log has: a checkpoint that a kill cut short is taken again at once. */
        if (e->log.written < e->between * EVENTS) continue;
        checkpoint(e);
        struct rusage used;
        getrusage(RUSAGE_SELF, &used);
        if (!e->seen->early) e->seen->early = (uint64_t)used.ru_maxrss;
        e->seen->last = (uint64_t)used.ru_maxrss;
    }
    log_keep(&e->log);
    return sum_of_others(e) == e->transfers && mz_little(e->image.accounts[1].value, 8) == 0 ? 0 : 3;
}

int main(int count, char **words) {
    if (count != 6) die("engine OBJECT FILE TRANSFERS BETWEEN KILLS", MZ_BAD_ARGUMENT);
    static engine e;
    seen *s = e.seen = (seen *)shared_by_lives(sizeof *s);
    e.object = words[1];
    e.path = words[2];
    e.transfers = strtoull(words[3], NULL, 10);
    e.between = strtoull(words[4], NULL, 10);
    int right = lives(live, &e, &s->life, strtoull(words[5], NULL, 10), MOST) == 0 && s->told == e.transfers;
    printf("%llu transfers, %llu kills, %llu of them within a checkpoint, %llu checkpoints: %s\n", (unsigned long long)s->told,
           (unsigned long long)s->life.kills, (unsigned long long)s->life.within, (unsigned long long)s->life.checkpoints,
           right ? "none lost, the sum is right" : "WRONG");
    printf("memory at the last life's first checkpoint %llu kB, at its last %llu kB\n", (unsigned long long)s->early,
           (unsigned long long)s->last);
    return !right;
}
