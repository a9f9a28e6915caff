/* The bank over two data components in memory, made by the same library: a transfer between them, a lost
 * reply, an abort that is undone, a restart that loses and is redone, both balances read at once, a log that
 * begins anew. Prints what comes of each. */
#include "mazzulpe_object.h"

typedef struct { mz_dc *dc[2]; int lose; } world;

static void die(const char *what, mz_code code) {
    fprintf(stderr, "%s: %s\n", what, mz_code_text(code));
    exit(1);
}

static mz_carried carry(void *context, const mz_wire *wire, mz_reply *reply, mz_news *news) {
    world *w = context;
    (void)news;
    if (wire->redo) printf("  redo of number %llu\n", (unsigned long long)wire->number);
    if (mz_dc_perform(w->dc[wire->record.dc], wire, reply) != MZ_OK) return MZ_LOST;
    if (!w->lose) return MZ_REPLIED;
    w->lose--;
    printf("  lost the reply to number %llu\n", (unsigned long long)wire->number);
    return MZ_LOST;
}

static void call(mz_tc *tc, world *w, const char *name, const uint64_t *args, size_t count) {
    uint64_t procedure = 0, txn = 0;
    mz_receipt r;
    mz_next stopped;
    mz_code c = mz_find(tc, name, &procedure);
    if (c == MZ_OK) c = mz_admit(tc, procedure, args, count, &txn, NULL, NULL);
    if (c == MZ_OK) c = mz_run(tc, txn, carry, w, 3, &r, &stopped);
    if (c != MZ_OK) die(name, c);
    if (stopped != MZ_OVER) printf("%s stopped\n", name);
    else if (r.outcome == MZ_COMMITTED) printf("%s committed\n", name);
    else printf("%s aborted %llu\n", name, (unsigned long long)r.value);
}

static void restart(mz_tc *tc, world *w, uint16_t dc) {
    mz_news news;
    int up = 0;
    mz_code c = mz_dc_restart(w->dc[dc], &news);
    if (c == MZ_OK) c = mz_told(tc, dc, &news);
    if (c != MZ_OK) die("restart", c);
    printf("data component %u restarted: incarnation %llu\n", dc, (unsigned long long)news.incarnation);
    c = mz_redo(tc, dc, carry, w, 3, &up);
    if (c != MZ_OK) die("redo", c);
    printf("data component %u is %s\n", dc, up ? "up" : "down");
}

/* Behind the calls: what data components have is kept, and the log begins anew. */
static void begin_anew(mz_tc *tc, world *w) {
    uint64_t mark = mz_low_water(tc), incarnation = 0;
    for (uint16_t dc = 0; dc < 2; dc++) {
        int forgotten = 0;
        mz_code c = mz_site(tc, dc, &incarnation, NULL);
        if (c == MZ_OK) c = mz_dc_hear_mark(w->dc[dc], incarnation, mark);
        if (c == MZ_OK) c = mz_dc_checkpoint(w->dc[dc]);
        if (c == MZ_OK) c = mz_dc_forget(w->dc[dc], &forgotten);
        if (c != MZ_OK || !forgotten) die("forget", c);
    }
    mz_code c = mz_checkpoint(tc, mark);
    if (c != MZ_OK) die("checkpoint", c);
}

/* The whole records of an account at each data component, read by one transaction. */
static void balances(mz_tc *tc, world *w, uint64_t here, uint64_t there) {
    uint64_t procedure = 0, txn = 0;
    uint8_t record[2][MZ_VALUE];
    int found[2] = {0, 0};
    mz_receipt r;
    mz_next stopped;
    mz_code c = mz_find(tc, "balances", &procedure);
    if (c == MZ_OK) c = mz_admit(tc, procedure, (uint64_t[]){here, there}, 2, &txn, NULL, NULL);
    if (c == MZ_OK) c = mz_run_until_over(tc, txn, carry, w, 3, &stopped);
    for (uint64_t slot = 0; c == MZ_OK && slot < 2; slot++) c = mz_result(tc, txn, slot, record[slot], &found[slot]);
    if (c == MZ_OK) c = mz_end(tc, txn, &r);
    if (c != MZ_OK) die("balances", c);
    if (r.outcome != MZ_COMMITTED || !found[0] || !found[1]) printf("balances aborted %llu\n", (unsigned long long)r.value);
    else printf("balances %llu %llu\n", (unsigned long long)mz_little(record[0], 8), (unsigned long long)mz_little(record[1], 8));
}

int main(void) {
    static const uint8_t bad[8] = {0xff};
    mz_code c;
    uint64_t place = 0, number;
    char refused[MZ_NAME + 1];
    world w = {{mz_dc_new(1000, 100000, &c), mz_dc_new(1000, 100000, &c)}, 0};
    mz_tc *tc = mz_tc_new(2, &c);
    if (!tc || !w.dc[0] || !w.dc[1]) die("start", c);
    c = mz_load_object_file(tc, "build/bank.o", refused, &place);
    if (c != MZ_OK) die(refused, c);
    c = mz_load(tc, "bad", bad, sizeof bad, NULL, 0, 0, &number, &place);
    printf("bad: %s at slot %llu\n", mz_code_text(c), (unsigned long long)place);
    call(tc, &w, "deposit_here", (uint64_t[]){1, 100}, 2);
    call(tc, &w, "deposit_there", (uint64_t[]){2, 100}, 2);
    w.lose = 1;
    call(tc, &w, "move", (uint64_t[]){1, 2, 30}, 3);
    call(tc, &w, "move", (uint64_t[]){1, 2, 500}, 3);
    call(tc, &w, "touch", (uint64_t[]){1}, 1);
    restart(tc, &w, 1);
    call(tc, &w, "move_back", (uint64_t[]){2, 1, 5}, 3);
    balances(tc, &w, 1, 2);
    long kinds[MZ_EVENT_CHECKPOINT + 1] = {0};
    mz_event event;
    for (uint64_t at = 0; mz_log_at(tc, at, &event) == MZ_OK; at++) kinds[event.kind]++;
    printf("log of %llu: %ld admitted, %ld asked, %ld answered, %ld undone, %ld ended; %llu open\n",
           (unsigned long long)mz_log_length(tc), kinds[MZ_EVENT_ADMIT], kinds[MZ_EVENT_ASK], kinds[MZ_EVENT_ANSWER],
           kinds[MZ_EVENT_UNDO], kinds[MZ_EVENT_END], (unsigned long long)mz_open_count(tc));
    begin_anew(tc, &w);
    if (mz_log_at(tc, 0, &event) == MZ_OK && event.kind == MZ_EVENT_CHECKPOINT)
        printf("log of %llu: begun behind transaction %llu and number %llu\n", (unsigned long long)mz_log_length(tc),
               (unsigned long long)event.txn, (unsigned long long)event.number);
    mz_tc_free(tc);
    mz_dc_free(w.dc[0]);
    mz_dc_free(w.dc[1]);
    return 0;
}
