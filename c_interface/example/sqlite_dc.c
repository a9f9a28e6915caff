#include "sqlite_dc.h"
#include "engines/faults.h"
#include <fcntl.h>
#include <stdio.h>
#include <unistd.h>

enum { RESERVE = 1 << 20, RESERVE_PAGES = 64, MOST_PAGES = 1073741823 };
enum { BEGIN, COMMIT, ROLLBACK, STANDING, RAISE, FORGET, FIND, KEEP, READ, INSERT, UPDATE, DELETE, STATEMENTS };

static const char *const text[STATEMENTS] = {
    "begin immediate", "commit", "rollback",
    "select mark, incarnation, session from component", "update component set mark = ?1",
    "delete from performed where number <= ?1", "select said, value from performed where number = ?1",
    "insert or replace into performed values (?1, ?2, ?3)",
    "select value from records where tab = ?1 and key = ?2", "insert into records values (?1, ?2, ?3)",
    "update records set value = ?3 where tab = ?1 and key = ?2", "delete from records where tab = ?1 and key = ?2",
};

static const char *const synchronous[] = {"off", "full", "normal"}; /* by sqlite_dc_durable */

struct sqlite_dc {
    sqlite3 *db;
    sqlite3_stmt *s[STATEMENTS];
    sqlite_dc_durable durable;
    int forgetful, is_full, has_reserve; /* is_full: the last wire found no room */
    char *reserve;
    uint64_t limit, limited; /* limited: the pages that SQLite knows as the most */
};

static int is_done(sqlite_dc *dc, int which) {
    int rc = sqlite3_step(dc->s[which]);
    sqlite3_reset(dc->s[which]);
    return rc == SQLITE_DONE;
}

static int executed(sqlite_dc *dc, char *sql) {
    int ok = sql && sqlite3_exec(dc->db, sql, NULL, NULL, NULL) == SQLITE_OK;
    if (!ok) fprintf(stderr, "sqlite: %s\n", sqlite3_errmsg(dc->db));
    sqlite3_free(sql);
    return ok;
}

/* A statement that gives one blob or nothing: 1 found, 0 not, -1 failed. */
static int blob_of(sqlite_dc *dc, int which, int column, uint8_t *value, int *first) {
    int rc = sqlite3_step(dc->s[which]), found = rc == SQLITE_ROW ? 1 : rc == SQLITE_DONE ? 0 : -1;
    if (found == 1) {
        if (first) *first = sqlite3_column_int(dc->s[which], 0);
        memset(value, 0, MZ_VALUE);
        if (sqlite3_column_bytes(dc->s[which], column) == MZ_VALUE) memcpy(value, sqlite3_column_blob(dc->s[which], column), MZ_VALUE);
    }
    sqlite3_reset(dc->s[which]);
    return found;
}

/* The low-water mark, the incarnation and the session; 0 where it serves none. */
static int standing(sqlite_dc *dc, mz_news *news, uint64_t *session) {
    int found = sqlite3_step(dc->s[STANDING]) == SQLITE_ROW;
    if (found) {
        news->mark = (uint64_t)sqlite3_column_int64(dc->s[STANDING], 0);
        news->incarnation = (uint64_t)sqlite3_column_int64(dc->s[STANDING], 1);
        *session = (uint64_t)sqlite3_column_int64(dc->s[STANDING], 2);
    }
    sqlite3_reset(dc->s[STANDING]);
    return found;
}

static void bind_record(sqlite_dc *dc, int which, const mz_wire *w) {
    sqlite3_bind_int(dc->s[which], 1, w->record.table);
    sqlite3_bind_int64(dc->s[which], 2, (sqlite3_int64)w->record.key);
    if (which == INSERT || which == UPDATE) sqlite3_bind_blob(dc->s[which], 3, w->value, MZ_VALUE, SQLITE_STATIC);
}

/* The operation itself. 0 where SQLite failed. */
static int operate(sqlite_dc *dc, const mz_wire *w, mz_reply *r) {
    static const int write[] = {0, 0, INSERT, UPDATE, DELETE};
    bind_record(dc, READ, w);
    int found = blob_of(dc, READ, 0, r->value, NULL);
    if (found < 0) return 0;
    r->said = w->op == MZ_READ ? (found ? MZ_VALUE_IS : MZ_ABSENT) : found ? MZ_DONE_WAS : MZ_DONE;
    if (w->op == MZ_INSERT && found) r->said = MZ_DUPLICATE;
    if (w->op > MZ_INSERT && !found) r->said = MZ_MISSING;
    if (w->op == MZ_READ || r->said == MZ_DUPLICATE || r->said == MZ_MISSING) return 1;
    bind_record(dc, write[w->op], w);
    return is_done(dc, write[w->op]);
}

/* The mark rises, and what is at or under it is forgotten. */
static int raised(sqlite_dc *dc, uint64_t mark) {
    sqlite3_bind_int64(dc->s[RAISE], 1, (sqlite3_int64)mark);
    sqlite3_bind_int64(dc->s[FORGET], 1, (sqlite3_int64)mark);
    return is_done(dc, RAISE) && is_done(dc, FORGET);
}

/* A wire, within a SQLite transaction: a number at or under the mark is old; one that was performed gets its answer again; else
 * the operation is performed, and kept with its answer. */
static int performed(sqlite_dc *dc, uint64_t mark, const mz_wire *w, mz_reply *r) {
    r->number = w->number;
    r->incarnation = w->incarnation;
    memset(r->value, 0, MZ_VALUE);
    if (w->number <= mark) {
        r->said = MZ_OLD;
        return 1;
    }
    int said;
    sqlite3_bind_int64(dc->s[FIND], 1, (sqlite3_int64)w->number);
    int found = dc->forgetful ? 0 : blob_of(dc, FIND, 1, r->value, &said);
    if (found) {
        r->said = (mz_said)said;
        return found > 0;
    }
    if (!operate(dc, w, r)) return 0;
    if (r->said != MZ_VALUE_IS && r->said != MZ_DONE_WAS) memset(r->value, 0, MZ_VALUE);
    sqlite3_bind_int64(dc->s[KEEP], 1, (sqlite3_int64)w->number);
    sqlite3_bind_int(dc->s[KEEP], 2, (int)r->said);
    sqlite3_bind_blob(dc->s[KEEP], 3, r->value, MZ_VALUE, SQLITE_STATIC);
    return is_done(dc, KEEP);
}

/* The wires, within a SQLite transaction, behind the greatest of their marks. */
static int all_performed(sqlite_dc *dc, uint64_t mark, const mz_wire *w, size_t count, mz_reply *r) {
    uint64_t before = mark;
    for (size_t i = 0; i < count; i++)
        if (w[i].low_water > mark) mark = w[i].low_water;
    if (mark > before && !raised(dc, mark)) return 0;
    for (size_t i = 0; i < count; i++)
        if (!performed(dc, mark, &w[i], &r[i])) return 0;
    return 1;
}

/* Want of room is no fault of the file. */
static void name_fault(sqlite_dc *dc) {
    static faults seen = {.lock = PTHREAD_MUTEX_INITIALIZER};
    dc->is_full = sqlite3_errcode(dc->db) == SQLITE_FULL;
    if (!dc->is_full) fault_seen(&seen, "sqlite", sqlite3_errmsg(dc->db));
}

static mz_carried tried(sqlite_dc *dc, const mz_wire *wires, size_t count, mz_reply *replies, mz_news *news) {
    uint64_t session = 0;
    dc->is_full = 0;
    if (!is_done(dc, BEGIN)) {
        name_fault(dc);
        return MZ_LOST;
    }
    int known = standing(dc, news, &session);
    mz_carried carried = !known || session != wires->session ? MZ_RETIRED
                         : news->incarnation != wires->incarnation ? MZ_RESTARTED : MZ_LOST;
    if (carried == MZ_LOST && all_performed(dc, news->mark, wires, count, replies) && is_done(dc, COMMIT)) return MZ_REPLIED;
    if (carried == MZ_LOST) name_fault(dc);
    is_done(dc, ROLLBACK);
    return carried;
}

/* ---- room */

/* Whether the reserve is there, on the disk. */
static int has_reserve(sqlite_dc *dc) {
    if (dc->has_reserve) return 1;
    int file = open(dc->reserve, O_WRONLY | O_CREAT | O_CLOEXEC, 0644);
    dc->has_reserve = file >= 0 && !posix_fallocate(file, 0, RESERVE);
    if (file >= 0) close(file);
    return dc->has_reserve;
}

static void give_reserve(sqlite_dc *dc) {
    dc->has_reserve = 0;
    if (truncate(dc->reserve, 0)) perror(dc->reserve);
}

static void limit_to(sqlite_dc *dc, uint64_t pages) {
    if (dc->limited != pages) executed(dc, sqlite3_mprintf("pragma max_page_count = %llu", pages ? pages : MOST_PAGES));
    dc->limited = pages;
}

mz_carried sqlite_dc_perform_many(sqlite_dc *dc, const mz_wire *wires, size_t count, mz_reply *replies, mz_news *news) {
    int is_needed = 1;
    for (size_t i = 0; i < count; i++) is_needed &= mz_finds_room(&wires[i]);
    if (!is_needed && !has_reserve(dc)) return MZ_LOST;
    limit_to(dc, is_needed && dc->limit ? dc->limit + RESERVE_PAGES : dc->limit);
    mz_carried carried = tried(dc, wires, count, replies, news);
    if (!is_needed || carried != MZ_LOST || !dc->is_full) return carried;
    give_reserve(dc);
    return tried(dc, wires, count, replies, news);
}

mz_carried sqlite_dc_perform(sqlite_dc *dc, const mz_wire *wire, mz_reply *reply, mz_news *news) {
    return sqlite_dc_perform_many(dc, wire, 1, reply, news);
}

static mz_carried receive(void *dc, int sent, const mz_wire *wires, size_t count, mz_reply *replies, mz_news *news) {
    (void)sent;
    return sqlite_dc_perform_many((sqlite_dc *)dc, wires, count, replies, news);
}

mz_batched sqlite_dc_batched(sqlite_dc *dc) { return (mz_batched){dc, NULL, receive, MZ_BATCH}; }

void sqlite_dc_limit(sqlite_dc *dc, uint64_t pages) { dc->limit = pages; }

uint64_t sqlite_dc_pages(sqlite_dc *dc) {
    sqlite3_stmt *s;
    uint64_t pages = 0;
    if (sqlite3_prepare_v2(dc->db, "pragma page_count", -1, &s, NULL) != SQLITE_OK) return 0;
    if (sqlite3_step(s) == SQLITE_ROW) pages = (uint64_t)sqlite3_column_int64(s, 0);
    sqlite3_finalize(s);
    return pages;
}

/* ---- */

/* The one row of `component` becomes the session's, within a SQLite transaction; 0 where it may not. */
static int is_begun(sqlite_dc *dc, uint64_t session, uint64_t former) {
    mz_news news;
    uint64_t served = 0;
    int serves = standing(dc, &news, &served);
    if (serves && served == session) return 1;
    if (serves && served != former) return 0;
    if (!executed(dc, sqlite3_mprintf("insert into ended select session from component; delete from performed;"))) return 0;
    if (!serves) return executed(dc, sqlite3_mprintf("insert into component values (%lld, 0, 0)", (long long)session));
    executed(dc, sqlite3_mprintf("update component set session = %lld, mark = 0 where not exists"
                                 " (select 1 from ended where session = %lld)", (long long)session, (long long)session));
    return sqlite3_changes(dc->db) == 1;
}

int sqlite_dc_begin(sqlite_dc *dc, uint64_t session, uint64_t former) {
    if (!session || !executed(dc, sqlite3_mprintf("pragma synchronous = full")) || !is_done(dc, BEGIN)) return 0;
    int ok = is_begun(dc, session, former);
    ok = is_done(dc, ok ? COMMIT : ROLLBACK) && ok;
    return executed(dc, sqlite3_mprintf("pragma synchronous = %s", synchronous[dc->durable])) && ok;
}

/* The mark is above each earlier one where anything was performed since, so there is something to commit, and with it
 * all before it comes to the disk. */
int sqlite_dc_keep(sqlite_dc *dc, uint64_t mark) {
    mz_news news;
    uint64_t session;
    if (!executed(dc, sqlite3_mprintf("pragma synchronous = full")) || !is_done(dc, BEGIN)) return 0;
    int ok = standing(dc, &news, &session) && (mark <= news.mark || raised(dc, mark));
    ok = is_done(dc, ok ? COMMIT : ROLLBACK) && ok;
    return executed(dc, sqlite3_mprintf("pragma synchronous = %s", synchronous[dc->durable])) && ok;
}

int sqlite_dc_put_back(sqlite_dc *dc, uint64_t incarnation, mz_news *news) {
    char *sql = sqlite3_mprintf("update component set incarnation = %lld", (long long)incarnation);
    uint64_t session;
    return executed(dc, sql) && standing(dc, news, &session);
}

int sqlite_dc_copy(sqlite_dc *dc, const char *path) {
    remove(path);
    return executed(dc, sqlite3_mprintf("vacuum into %Q", path));
}

sqlite_dc *sqlite_dc_open(const char *path, uint64_t session, sqlite_dc_durable durable) {
    sqlite_dc *dc = calloc(1, sizeof *dc);
    if (!dc) return NULL;
    dc->durable = durable;
    dc->reserve = sqlite3_mprintf("%s.reserve", path);
    int ok = dc->reserve && sqlite3_open(path, &dc->db) == SQLITE_OK;
    if (ok) sqlite3_busy_timeout(dc->db, 5000);
    ok = ok && executed(dc, sqlite3_mprintf(
        "pragma journal_mode = wal; pragma synchronous = %s;"
        "create table if not exists records (tab integer, key integer, value blob not null, primary key (tab, key)) without rowid;"
        "create table if not exists performed (number integer primary key, said integer not null, value blob not null);"
        "create table if not exists component (session integer not null, mark integer not null, incarnation integer not null);"
        "create table if not exists ended (session integer primary key);"
        "insert into component select %lld, 0, 0 where %lld <> 0 and not exists (select 1 from component);",
        synchronous[durable], (long long)session, (long long)session));
    for (int i = 0; ok && i < STATEMENTS; i++) ok = sqlite3_prepare_v2(dc->db, text[i], -1, &dc->s[i], NULL) == SQLITE_OK;
    if (ok) return dc;
    sqlite_dc_close(dc);
    return NULL;
}

void sqlite_dc_close(sqlite_dc *dc) {
    if (!dc) return;
    for (int i = 0; i < STATEMENTS; i++) sqlite3_finalize(dc->s[i]);
    sqlite3_close(dc->db);
    sqlite3_free(dc->reserve);
    free(dc);
}

int sqlite_dc_get(sqlite_dc *dc, const mz_record *record, uint8_t value[MZ_VALUE]) {
    mz_wire read = {.record = *record};
    bind_record(dc, READ, &read);
    return blob_of(dc, READ, 0, value, NULL);
}

int64_t sqlite_dc_sum(sqlite_dc *dc) {
    int64_t sum = 0;
    sqlite3_stmt *s;
    if (sqlite3_prepare_v2(dc->db, "select value from records", -1, &s, NULL) != SQLITE_OK) return -1;
    while (sqlite3_step(s) == SQLITE_ROW) {
        int64_t balance;
        memcpy(&balance, sqlite3_column_blob(s, 0), sizeof balance);
        sum += balance;
    }
    sqlite3_finalize(s);
    return sum;
}

void sqlite_dc_forget_answers(sqlite_dc *dc) { dc->forgetful = 1; }
