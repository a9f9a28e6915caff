/* A million calls of the bank in rounds: behind each round the log begins anew, and the data components forget
 * what they performed, which have room for two rounds' operations alone. anew OBJECT [grow]: with the word
 * they don't, and the calls end where the lists are full. */
#include "mazzulpe_object.h"
#include <sys/resource.h>

typedef struct { mz_dc *dc[2]; } world;

static void die(const char *what, mz_code code) {
    fprintf(stderr, "%s: %s\n", what, mz_code_text(code));
    exit(1);
}

static mz_carried carry(void *context, const mz_wire *wire, mz_reply *reply, mz_news *news) {
    world *w = context;
    (void)news;
    return mz_dc_perform(w->dc[wire->record.dc], wire, reply) == MZ_OK ? MZ_REPLIED : MZ_LOST;
}

static void call(mz_tc *tc, world *w, const char *name, const uint64_t *args, size_t count) {
    uint64_t procedure = 0, txn = 0;
    mz_receipt r;
    mz_next stopped;
    mz_code c = mz_find(tc, name, &procedure);
    if (c == MZ_OK) c = mz_admit(tc, procedure, args, count, &txn, NULL, NULL);
    if (c == MZ_OK) c = mz_run(tc, txn, carry, w, 3, &r, &stopped);
    if (c != MZ_OK) die(name, c);
    if (stopped != MZ_OVER || r.outcome != MZ_COMMITTED) die("not committed", MZ_OK);
}

static uint64_t balance(world *w, uint16_t dc, uint64_t account) {
    uint8_t value[MZ_VALUE];
    mz_said said;
    mz_record record = {dc, 0, account};
    if (mz_dc_get(w->dc[dc], &record, &said, value) != MZ_OK || said != MZ_VALUE_IS) return 0;
    return mz_little(value, 8);
}

static uint64_t total(world *w) {
    uint64_t sum = 0;
    for (uint64_t account = 0; account < 100; account++) sum += balance(w, 0, account) + balance(w, 1, account);
    return sum;
}

/* behind a round */
static void begin_anew(mz_tc *tc, world *w) {
    uint64_t mark = mz_low_water(tc);
    for (int d = 0; d < 2; d++) {
        int forgotten = 0;
        uint64_t incarnation = 0;
        mz_code c = mz_site(tc, (uint16_t)d, &incarnation, NULL);
        if (c == MZ_OK) c = mz_dc_hear_mark(w->dc[d], incarnation, mark);
        if (c == MZ_OK) c = mz_dc_checkpoint(w->dc[d]);
        if (c == MZ_OK) c = mz_dc_forget(w->dc[d], &forgotten);
        if (c != MZ_OK || !forgotten) die("forget", c);
    }
    mz_code c = mz_checkpoint(tc, mark);
    if (c != MZ_OK) die("checkpoint", c);
}

/* The most memory that the process had so far, in kB. */
static long resident(void) {
    struct rusage used;
    getrusage(RUSAGE_SELF, &used);
    return used.ru_maxrss;
}

int main(int count, char **argv) {
    mz_code c;
    char refused[MZ_NAME + 1];
    uint64_t place = 0;
    long early = 0;
    int anew = count < 3;
    world w = {{mz_dc_new(1000, 4096, &c), mz_dc_new(1000, 4096, &c)}};
    mz_tc *tc = mz_tc_new(2, &c);
    if (!tc || !w.dc[0] || !w.dc[1] || count < 2) die("anew OBJECT [grow]", c);
    c = mz_load_object_file(tc, argv[1], refused, &place);
    if (c != MZ_OK) die(refused, c);
    printf("a checkpoint before all: %s\n", mz_code_text(mz_checkpoint(tc, 0)));
    for (uint64_t account = 0; account < 100; account++) {
        uint64_t args[2] = {account, 1000};
        call(tc, &w, "deposit_here", args, 2);
    }
    printf("one below the mark: %s\n", mz_code_text(mz_checkpoint(tc, mz_low_water(tc) - 1)));
    for (int round = 0; round < 1000; round++) {
        for (uint64_t k = 0; k < 1000; k++) {
            uint64_t args[2] = {k % 100, 1};
            call(tc, &w, "deposit_here", args, 2);
        }
        if (anew) begin_anew(tc, &w);
        if (round == 0 || round == 999)
            printf("round %d: log %llu events, low water %llu, total %llu\n", round + 1,
                   (unsigned long long)mz_log_length(tc), (unsigned long long)mz_low_water(tc),
                   (unsigned long long)total(&w));
        if (round == 99) early = resident();
    }
    printf("memory of round 100: %s\n", resident() == early ? "enough to the end" : "not enough");
    mz_news news;
    int up = 0;
    c = mz_dc_restart(w.dc[0], &news);
    if (c == MZ_OK) c = mz_told(tc, 0, &news);
    if (c != MZ_OK) die("restart", c);
    c = mz_redo(tc, 0, carry, &w, 3, &up);
    printf("restarted at mark %llu: %s, %s, total %llu\n", (unsigned long long)news.mark, mz_code_text(c),
           up ? "up" : "down", (unsigned long long)total(&w));
    news.incarnation++;
    news.mark--;
    printf("news of less than the log has: %s\n", mz_code_text(mz_told(tc, 0, &news)));
    return 0;
}
