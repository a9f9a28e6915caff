/* How many transfers a second over an engine that people run, beside this engine alone, in one run:
 *
 *     figures_NAME OBJECT FOLDER SECONDS TURNS [unsynced]
 *
 * Each way is taken for SECONDS, one after the other, in TURNS turns, of which the median counts, as it does of ratios, each
 * of one turn. The log is synced before wires go, and what the engine does alone before it is over; or neither. A transfer
 * is one of two accounts of 20,000, at one data component. */
#include "alone.h"
#include "cpu.h"
#include "mazzulpe_object.h"
#include "mazzulpe_pool.h"
#include "storage.h"
#include <sys/resource.h>
#include <sys/wait.h>

enum { TURNS = 9, CALLS = 512, THREADS_WITHOUT = 8, TRIES = 3, WIDTHS = 3 };
/* Rows: mz_run by threads, threads in mz_pool_call, calls that are submitted; then each way of the engine alone, by
 * each number of connections. */
enum { RUN_1, CALL_1, RUN_8, CALL_8, CALL_64, OPEN_1, OPEN_8, OPEN_64, OPEN_512, ALONE, ROWS = ALONE + 4 * WIDTHS };
#define OPENED 1000000

/* Of a way, in each turn: transfers a second, and microseconds of processors a transfer, of the servers and of this process. */
typedef struct { char name[80]; double rate[TURNS], servers[TURNS], own[TURNS]; } row;

static row rows[ROWS];
static int turn, row_count, synced;
static const int widths[WIDTHS] = {1, 8, 64};
static double seconds;
static const char *folder;
static mz_tc *tc;
static mz_log *log_of;
static mz_pool *pool;
static pthread_mutex_t lock = PTHREAD_MUTEX_INITIALIZER;
static _Atomic uint64_t ended, open_calls;
static _Atomic int is_over;

static void fail(const char *what, mz_code c) {
    fprintf(stderr, "%s: %s\n", what, c == MZ_OK ? "it failed" : mz_code_text(c));
    exit(1);
}

static double now(void) {
    struct timespec t;
    clock_gettime(CLOCK_MONOTONIC, &t);
    return (double)t.tv_sec + (double)t.tv_nsec / 1e9;
}

static double own_cpu(void) {
    struct rusage u;
    getrusage(RUSAGE_SELF, &u);
    return (double)(u.ru_utime.tv_sec + u.ru_stime.tv_sec) + (double)(u.ru_utime.tv_usec + u.ru_stime.tv_usec) / 1e6;
}

/* Two accounts. */
static void drawn(unsigned *seed, uint64_t args[3]) {
    args[0] = (uint64_t)rand_r(seed) % ACCOUNTS;
    args[1] = (args[0] + 1 + (uint64_t)rand_r(seed) % (ACCOUNTS - 1)) % ACCOUNTS;
    args[2] = 1;
}

/* Sleeps while a way goes on, and notes what it did. */
static void measured(int at, const char *name) {
    row *r = &rows[at];
    if (at >= row_count) row_count = at + 1;
    snprintf(r->name, sizeof r->name, "%s", name);
    double servers = cpu_below(getppid(), getpid()), own = own_cpu(), began = now();
    uint64_t before = ended;
    usleep((useconds_t)(seconds * 1e6));
    double count = (double)(ended - before);
    r->rate[turn] = count / (now() - began);
    r->servers[turn] = (cpu_below(getppid(), getpid()) - servers) / count * 1e6;
    r->own[turn] = (own_cpu() - own) / count * 1e6;
}

/* ---- over the engine */

static void submit(unsigned *seed);

static void told(void *seed, mz_code code, const mz_receipt *receipt) {
    if (code != MZ_OK || receipt->outcome != MZ_COMMITTED) fail("a transfer", code);
    ended++;
    if (is_over) open_calls--;
    else submit((unsigned *)seed);
}

static void submit(unsigned *seed) {
    uint64_t args[3];
    drawn(seed, args);
    mz_code c = mz_pool_submit(pool, "move_here", args, 3, NULL, 0, told, seed);
    if (c != MZ_OK) fail("mz_pool_submit", c);
}

static void open_pool(size_t calls) {
    const mz_pool_options options = {.unsynced = !synced};
    mz_code c = mz_pool_open(tc, log_of, storage_carry_many, NULL, calls, &options, &pool);
    if (c != MZ_OK) fail("mz_pool_open", c);
}

static int keep(void *context, uint16_t dc, uint64_t incarnation, uint64_t mark) {
    (void)context;
    return storage_keep(dc, incarnation, mark);
}

static void close_pool(void) {
    mz_code c = mz_pool_checkpoint(pool, 10000, keep, NULL);
    if (c != MZ_OK) fail("mz_pool_checkpoint", c);
    mz_pool_close(pool, 10000);
}

static void by_calls(int row, size_t calls) {
    static unsigned seeds[CALLS];
    char name[80];
    snprintf(name, sizeof name, "pool, %zu calls open", calls);
    open_pool(calls);
    is_over = 0;
    open_calls = calls;
    for (size_t i = 0; i < calls; i++) {
        seeds[i] = (unsigned)i + 1;
        submit(&seeds[i]);
    }
    measured(row, name);
    is_over = 1;
    while (open_calls) usleep(1000);
    close_pool();
}

static void *calls_pool(void *context) {
    unsigned seed = (unsigned)(size_t)context;
    while (!is_over) {
        uint64_t args[3];
        mz_receipt receipt;
        drawn(&seed, args);
        mz_code c = mz_pool_call(pool, "move_here", args, 3, NULL, 0, &receipt);
        if (c != MZ_OK || receipt.outcome != MZ_COMMITTED) fail("mz_pool_call", c);
        ended++;
    }
    return NULL;
}

/* The log is written, and synced where it is to be, without the lock. */
static void write_ahead(void) {
    uint64_t until;
    mz_code c = mz_log_write(log_of, &until);
    pthread_mutex_unlock(&lock);
    if (c == MZ_OK) c = synced ? mz_log_sync(log_of, until) : mz_log_flush(log_of, until);
    if (c != MZ_OK) fail("the log", c);
}

static mz_carried carry_one(void *context, const mz_wire *wire, mz_reply *reply, mz_news *news) {
    const mz_wire mine = *wire;
    (void)context;
    write_ahead();
    mz_carried carried = storage_carry(&mine, reply, news);
    pthread_mutex_lock(&lock);
    return carried;
}

/* mz_run, a call a thread. */
static void *calls_alone(void *context) {
    unsigned seed = (unsigned)(size_t)context;
    uint64_t procedure = 0, txn = 0, args[3];
    mz_receipt receipt;
    mz_next stopped = MZ_WAITS;
    pthread_mutex_lock(&lock);
    mz_find(tc, "move_here", &procedure);
    while (!is_over) {
        drawn(&seed, args);
        if (mz_admit(tc, procedure, args, 3, &txn, NULL, NULL) != MZ_OK) continue; /* other accounts are free */
        do
            if (mz_run_until_over(tc, txn, carry_one, NULL, TRIES, &stopped) != MZ_OK) fail("mz_run_until_over", MZ_OK);
        while (stopped != MZ_OVER);
        if (mz_end(tc, txn, &receipt) != MZ_OK || receipt.outcome != MZ_COMMITTED) fail("a transfer", MZ_OK);
        write_ahead();
        ended++;
        pthread_mutex_lock(&lock);
    }
    pthread_mutex_unlock(&lock);
    return NULL;
}

static void by_threads(int row, const char *name, int count, void *(*goes)(void *)) {
    pthread_t threads[CALLS];
    is_over = 0;
    for (int i = 0; i < count; i++)
        if (pthread_create(&threads[i], NULL, goes, (void *)(size_t)(i + 1))) fail("a thread", MZ_OK);
    measured(row, name);
    is_over = 1;
    for (int i = 0; i < count; i++) pthread_join(threads[i], NULL);
}

static void by_callers(int row, const char *name, int count) {
    open_pool(CALLS);
    by_threads(row, name, count, calls_pool);
    close_pool();
}

static void over_engine(void) {
    by_threads(RUN_1, "mz_run, 1 thread", 1, calls_alone);
    by_callers(CALL_1, "mz_pool_call, 1 thread", 1);
    by_threads(RUN_8, "mz_run, 8 threads", THREADS_WITHOUT, calls_alone);
    by_callers(CALL_8, "mz_pool_call, 8 threads", 8);
    by_callers(CALL_64, "mz_pool_call, 64 threads", 64);
    by_calls(OPEN_1, 1);
    by_calls(OPEN_8, 8);
    by_calls(OPEN_64, 64);
    by_calls(OPEN_512, 512);
}

/* ---- the engine alone */

static const alone_way *way;

static void *transfers(void *context) {
    unsigned seed = (unsigned)(size_t)context;
    uint64_t args[3];
    void *c = way->connected(folder, synced);
    if (!c) fail("a connection", MZ_OK);
    while (!is_over) {
        drawn(&seed, args);
        if (!way->transfer(c, args[0], args[1])) fail(way->name, MZ_OK);
        ended++;
    }
    way->disconnect(c);
    return NULL;
}

static void engine_alone(void) {
    char name[80];
    for (way = alone_ways; way->name; way++)
        for (int w = 0; w < WIDTHS; w++) {
            if (!way->begin(folder, synced)) fail(way->name, MZ_OK);
            snprintf(name, sizeof name, "%s, by %d", way->name, widths[w]);
            by_threads(ALONE + (int)(way - alone_ways) * WIDTHS + w, name, widths[w], transfers);
        }
}

/* ---- one run */

static uint64_t sum;

static void deposited(void *context, mz_code code, const mz_receipt *receipt) {
    (void)context;
    if (code != MZ_OK || receipt->outcome != MZ_COMMITTED) fail("a call", code);
    ended++;
}

static void open_accounts(void) {
    open_pool(512);
    for (uint64_t a = 0; a < ACCOUNTS; a++) {
        const uint64_t args[] = {a, OPENED};
        mz_code c = mz_pool_submit(pool, "deposit_here", args, 2, NULL, 0, deposited, NULL);
        if (c == MZ_OK && !a) c = mz_pool_submit(pool, "deposit_there", args, 2, NULL, 0, deposited, NULL); /* so that it serves too */
        if (c != MZ_OK) fail("a deposit", c);
    }
    while (ended < ACCOUNTS + 1) usleep(1000);
    close_pool();
}

static void looked_at_sum(void) {
    static mz_slot_value held[ACCOUNTS];
    uint64_t before = ended;
    open_pool(CALLS);
    for (uint64_t a = 0; a < ACCOUNTS; a++) {
        const uint64_t args[] = {a, 0};
        mz_code c = mz_pool_submit(pool, "balances", args, 2, &held[a], 1, deposited, NULL);
        if (c != MZ_OK) fail("balances", c);
    }
    while (ended < before + ACCOUNTS) usleep(1000);
    close_pool();
    for (int a = 0; a < ACCOUNTS; a++) sum += mz_little(held[a].value, 8);
    if (sum != (uint64_t)ACCOUNTS * OPENED) fail("the sum of all accounts", MZ_OK);
}

static int by_size(const void *a, const void *b) {
    double x = *(const double *)a, y = *(const double *)b;
    return x < y ? -1 : x > y;
}

static double median(double *of, int count) {
    qsort(of, (size_t)count, sizeof *of, by_size);
    return of[count / 2];
}

/* The greatest rate of a turn of the engine alone in this way. */
static double best_alone(int of_way, int in_turn) {
    double best = 0;
    for (int w = 0; w < WIDTHS; w++) {
        double rate = rows[ALONE + of_way * WIDTHS + w].rate[in_turn];
        if (rate > best) best = rate;
    }
    return best;
}

/* Of a row to another's, or to the best of the engine alone in a way. */
static void tell_ratio(int at, int of_row, int of_way, int turns) {
    double ratios[TURNS];
    char of[90];
    for (int t = 0; t < turns; t++)
        ratios[t] = rows[at].rate[t] / (of_row < 0 ? best_alone(of_way, t) : rows[of_row].rate[t]);
    if (of_row < 0) snprintf(of, sizeof of, "%s, at its best", alone_ways[of_way].name);
    else snprintf(of, sizeof of, "%s", rows[of_row].name);
    double middle = median(ratios, turns);
    printf("%-26s of %-44s %5.2f (%.2f to %.2f)\n", rows[at].name, of, middle, ratios[0], ratios[turns - 1]);
}

static void tell_ratios(int turns) {
    for (int w = 0; alone_ways[w].name; w++) {
        tell_ratio(OPEN_64, -1, w, turns);
        tell_ratio(OPEN_512, -1, w, turns);
    }
    tell_ratio(CALL_64, RUN_8, 0, turns);
    tell_ratio(CALL_1, RUN_1, 0, turns);
}

static void run(const char *object, int turns) {
    char path[400];
    mz_log_found found;
    mz_code c;
    tc = mz_tc_new(DCS, &c);
    if (c == MZ_OK) c = mz_load_object_file(tc, object, NULL, NULL);
    snprintf(path, sizeof path, "%s/log", folder);
    if (c == MZ_OK) c = mz_log_open(tc, path, &log_of, &found);
    if (c != MZ_OK || !storage_open(folder, mz_session(tc))) fail("it can't begin", c);
    open_accounts();
    for (turn = 0; turn < turns; turn++) {
        over_engine();
        engine_alone();
    }
    looked_at_sum();
    tell_ratios(turns);
    printf("%-32s %12s %22s\n", synced ? "synced" : "not synced", "a second", "CPU us: servers + own");
    for (int i = 0; i < row_count; i++)
        printf("%-32s %12.0f %14.0f + %.0f\n", rows[i].name, median(rows[i].rate, turns), median(rows[i].servers, turns), median(rows[i].own, turns));
    fflush(stdout);
}

int main(int argc, char **argv) {
    int status = 1;
    if (argc < 5) fail("figures OBJECT FOLDER SECONDS TURNS [unsynced]", MZ_OK);
    folder = argv[2];
    seconds = atof(argv[3]);
    int turns = atoi(argv[4]);
    synced = servers_synced = argc == 5;
    if (turns < 1 || turns > TURNS || !servers_begin(folder, NULL)) return 2;
    fflush(stdout);
    pid_t child = fork();
    if (child == 0) {
        run(argv[1], turns);
        _exit(0);
    }
    if (child > 0) waitpid(child, &status, 0);
    servers_end();
    return status != 0;
}
