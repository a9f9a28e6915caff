/* How many calls a second through the C interface, by one thread: figures CALLS [FOLDER]
 *
 * An amount moved between two of 1,000 records. The storage is an array of this program; a data component
 * of the library; and with FOLDER the array with a log there, which isn't synced: each wire and each end is written, and put
 * into the file behind 64 transfers, or each at once; and two SQLite files, none of them synced to the disk, beside SQLite
 * alone that does the same transfers over the same two files, attached, each a transaction of its own. */
#include "mazzulpe_log.h"
#include "mazzulpe_object.h"
#ifdef WITH_SQLITE
#include "sqlite_dc.h"
#endif
#include <stdio.h>
#include <time.h>

enum { RECORDS = 1000, FULL = 1000000, TOGETHER = 64 };

static uint8_t values[2][RECORDS][MZ_VALUE];
static mz_dc *dcs[2];

static double seconds(void) {
    struct timespec t;
    clock_gettime(CLOCK_MONOTONIC, &t);
    return (double)t.tv_sec + (double)t.tv_nsec / 1e9;
}

static void said(const char *what, long count, double took) {
    printf("%-45s %9.0f calls a second, %7.2f us a call\n", what, (double)count / took, took / (double)count * 1e6);
    fflush(stdout);
}

static mz_carried by_array(void *context, const mz_wire *w, mz_reply *r, mz_news *news) {
    (void)context, (void)news;
    uint8_t *at = values[w->record.dc][w->record.key];
    r->number = w->number;
    r->incarnation = w->incarnation;
    r->said = w->op == MZ_READ ? MZ_VALUE_IS : MZ_DONE_WAS;
    memcpy(r->value, at, MZ_VALUE);
    if (w->op != MZ_READ) memcpy(at, w->value, MZ_VALUE);
    return MZ_REPLIED;
}

/* A log, and after how many writes it is put into its file. */
typedef struct { mz_log *log; int each, left; } kept;

static void keep(kept *k) {
    uint64_t until;
    if (mz_log_write(k->log, &until) != MZ_OK) exit(9);
    if (--k->left > 0) return;
    k->left = k->each;
    if (mz_log_flush(k->log, until) != MZ_OK) exit(9);
}

static mz_carried by_logged_array(void *context, const mz_wire *w, mz_reply *r, mz_news *news) {
    const mz_wire mine = *w;
    keep((kept *)context);
    return by_array(NULL, &mine, r, news);
}

static mz_carried by_library(void *context, const mz_wire *w, mz_reply *r, mz_news *news) {
    (void)context, (void)news;
    return mz_dc_perform(dcs[w->record.dc], w, r) == MZ_OK ? MZ_REPLIED : MZ_LOST;
}

/* Two accounts that differ, by the turn of a generator that is the same every time. */
static void drawn(uint64_t *x, uint64_t args[3]) {
    *x ^= *x << 13;
    *x ^= *x >> 7;
    *x ^= *x << 17;
    args[0] = *x % RECORDS;
    args[1] = (*x >> 20) % RECORDS;
    args[2] = 1;
}

static mz_tc *loaded(uint64_t *move, uint64_t *deposits) {
    mz_code c;
    char refused[MZ_NAME + 1];
    mz_tc *tc = mz_tc_new(2, &c);
    mz_set_session(tc, 1);
    if (!tc || mz_load_object_file(tc, "build/bank.o", refused, NULL) != MZ_OK) exit(3);
    if (mz_find(tc, "move", move) || mz_find(tc, "deposit_here", deposits) || mz_find(tc, "deposit_there", deposits + 1)) exit(3);
    return tc;
}

static void call(mz_tc *tc, uint64_t procedure, const uint64_t *args, size_t count, mz_carry *carry, void *context) {
    uint64_t txn;
    mz_receipt r;
    mz_next stopped;
    if (mz_admit(tc, procedure, args, count, &txn, NULL, NULL) != MZ_OK) exit(4);
    if (mz_run(tc, txn, carry, context, 1, &r, &stopped) != MZ_OK || stopped != MZ_OVER || r.outcome != MZ_COMMITTED) exit(5);
}

static void timed(const char *what, long count, mz_carry *carry, void *context) {
    uint64_t move, deposits[2], x = 88172645463325252ull, args[3];
    mz_tc *tc = loaded(&move, deposits);
    for (uint64_t k = 0; carry != by_array && k < 2 * RECORDS; k++)
        call(tc, deposits[k % 2], (uint64_t[]){k / 2, FULL}, 2, carry, context);
    double began = seconds();
    for (long i = 0; i < count; i++) {
        drawn(&x, args);
        call(tc, move, args, 3, carry, context);
    }
    said(what, count, seconds() - began);
    mz_tc_free(tc);
}

/* In one run with the array alone, turn by turn, so that both have the same machine. */
static void logged_timed(const char *folder, long count) {
    static const int each[] = {0, 5 * TOGETHER, 1};
    static const char *const what[] = {"the array, in turns", "with a log, put out behind 64", "with a log, each write put out"};
    enum { KINDS = 3, TURNS = 20 };
    double took[KINDS] = {0};
    char path[512];
    kept k[KINDS] = {{0}};
    mz_tc *tc[KINDS];
    uint64_t move, deposits[2], x = 88172645463325252ull, args[3];
    for (int i = 0; i < KINDS; i++) {
        tc[i] = loaded(&move, deposits);
        snprintf(path, sizeof path, "%s/figures_%d.log", folder, i);
        k[i].each = each[i];
        if (each[i] && mz_log_open(tc[i], path, &k[i].log, NULL) != MZ_OK) exit(9);
    }
    for (int turn = 0; turn < TURNS * KINDS; turn++) {
        int i = turn % KINDS;
        double began = seconds();
        for (long n = 0; n < count / TURNS; n++) {
            drawn(&x, args);
            call(tc[i], move, args, 3, each[i] ? by_logged_array : by_array, &k[i]);
            if (each[i]) keep(&k[i]);
        }
        took[i] += seconds() - began;
    }
    for (int i = 0; i < KINDS; i++) {
        said(what[i], count, took[i]);
        mz_log_close(k[i].log);
        mz_tc_free(tc[i]);
    }
}

#ifdef WITH_SQLITE
static sqlite_dc *files[2];

static mz_carried by_sqlite(void *context, const mz_wire *w, mz_reply *r, mz_news *news) {
    (void)context;
    return sqlite_dc_perform(files[w->record.dc], w, r, news);
}

static void sqlite_timed(const char *folder, long count) {
    char path[2][512];
    for (int i = 0; i < 2; i++) {
        snprintf(path[i], sizeof path[i], "%s/figures_%d.db", folder, i);
        remove(path[i]);
        files[i] = sqlite_dc_open(path[i], 1, SQLITE_DC_LATER);
        if (!files[i]) exit(6);
    }
    timed("two SQLite files, not synced", count, by_sqlite, NULL);
    for (int i = 0; i < 2; i++) sqlite_dc_close(files[i]);
}

/* A transfer is one transaction over both files: two reads, two updates. */
static void sqlite_alone(const char *folder, long count) {
    sqlite3 *db;
    sqlite3_stmt *read[2], *write[2];
    char sql[700];
    snprintf(sql, sizeof sql, "%s/figures_0.db", folder);
    if (sqlite3_open(sql, &db)) exit(7);
    snprintf(sql, sizeof sql, "pragma synchronous = off; attach '%s/figures_1.db' as other; pragma other.synchronous = off", folder);
    if (sqlite3_exec(db, sql, NULL, NULL, NULL)) exit(7);
    for (int i = 0; i < 2; i++) {
        snprintf(sql, sizeof sql, "select value from %s.records where tab = 0 and key = ?1", i ? "other" : "main");
        if (sqlite3_prepare_v2(db, sql, -1, &read[i], NULL)) exit(7);
        snprintf(sql, sizeof sql, "update %s.records set value = ?2 where tab = 0 and key = ?1", i ? "other" : "main");
        if (sqlite3_prepare_v2(db, sql, -1, &write[i], NULL)) exit(7);
    }
    uint64_t x = 88172645463325252ull, args[3];
    double began = seconds();
    for (long i = 0; i < count; i++) {
        drawn(&x, args);
        if (sqlite3_exec(db, "begin immediate", NULL, NULL, NULL)) exit(8);
        for (int k = 0; k < 2; k++) {
            uint8_t value[MZ_VALUE];
            uint64_t balance;
            sqlite3_bind_int64(read[k], 1, (sqlite3_int64)args[k]);
            if (sqlite3_step(read[k]) != SQLITE_ROW) exit(8);
            memcpy(value, sqlite3_column_blob(read[k], 0), MZ_VALUE);
            sqlite3_reset(read[k]);
            memcpy(&balance, value, 8);
            balance = k ? balance + args[2] : balance - args[2];
            memcpy(value, &balance, 8);
            sqlite3_bind_int64(write[k], 1, (sqlite3_int64)args[k]);
            sqlite3_bind_blob(write[k], 2, value, MZ_VALUE, SQLITE_STATIC);
            if (sqlite3_step(write[k]) != SQLITE_DONE) exit(8);
            sqlite3_reset(write[k]);
        }
        if (sqlite3_exec(db, "commit", NULL, NULL, NULL)) exit(8);
    }
    said("SQLite alone over the same two files", count, seconds() - began);
    for (int i = 0; i < 2; i++) {
        sqlite3_finalize(read[i]);
        sqlite3_finalize(write[i]);
    }
    sqlite3_close(db);
}
#endif

int main(int argc, char **argv) {
    long count = argc > 1 ? atol(argv[1]) : 100000;
    mz_code c;
    for (int d = 0; d < 2; d++) {
        dcs[d] = mz_dc_new(RECORDS, 1048576, &c);
        if (!dcs[d]) return 2;
        for (int k = 0; k < RECORDS; k++) values[d][k][2] = FULL >> 16;
    }
    timed("an array of the program", count, by_array, NULL);
    timed("the library's data components", count < 200000 ? count : 200000, by_library, NULL);
    if (argc > 2) logged_timed(argv[2], count);
#ifdef WITH_SQLITE
    if (argc > 2) {
        sqlite_timed(argv[2], count / 20);
        sqlite_alone(argv[2], count / 20);
    }
#endif
    mz_tc *tc = mz_tc_new(1, &c);
    double began = seconds();
    for (int i = 0; i < 10000000; i++) mz_open_count(tc);
    printf("%-45s %9.1f ns\n", "a call that does nothing", (seconds() - began) / 10000000 * 1e9);
    mz_tc_free(tc);
    for (int d = 0; d < 2; d++) mz_dc_free(dcs[d]);
    return 0;
}
