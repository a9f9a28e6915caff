#include "postgres_log.h"
#include "faults.h"
#include <endian.h>
#include <libpq-fe.h>
#include <time.h>

enum { PAGE = 64, PATIENCE = 60, BEATS = 8, MOST = 5 };

struct postgres_log {
    char *words, *name;
    unsigned silence;                   /* milliseconds */
    uint64_t epoch, drawn, first, next; /* the chunks that the log has: from first on, up to next */
    int is_fresh;                       /* appended to since the last sync */
    _Atomic int is_unsure;              /* the server warned, as where a commit didn't wait for its standbys */
    PGconn *to, *beating;
};

static const char schema[] =
    "begin; set local client_min_messages = warning;"
    "select pg_advisory_xact_lock(28027, 4);"
    "create schema if not exists mz_log;"
    "create table if not exists mz_log.home (name text primary key, epoch int8 not null, writer int8 not null, session int8 not null,"
    "  first int8 not null, next int8 not null, confirmed int8 not null);"
    "create table if not exists mz_log.beat (name text primary key, beats int8 not null);"
    "create table if not exists mz_log.chunk (name text, number int8, epoch int8 not null, bytes bytea not null, primary key (name, number));"
    "alter table mz_log.chunk alter column bytes set storage external;"
    "commit";

/* $1: name, $2: epoch, $3: next, $4: bytes. */
#ifdef UNFENCED /* a control: a home that compares nothing */
#define OURS "update mz_log.home set next = $3::int8 + 1%s where name = $1::text and epoch >= 0 * $2::int8 returning 1"
#define PUTS \
    "insert into mz_log.chunk select $1::text, $3::int8, $2::int8, $4::bytea from ours" \
    " on conflict (name, number) do update set bytes = excluded.bytes"
#else
#define OURS "update mz_log.home set next = $3::int8 + 1%s where name = $1::text and epoch = $2::int8 and next = $3::int8 returning 1"
#define PUTS "insert into mz_log.chunk select $1::text, $3::int8, $2::int8, $4::bytea from ours"
#endif

static const char put_behind[] = "with ours as (" OURS ") " PUTS;
static const char put_in_place[] = "with ours as (" OURS "), gone as (delete from mz_log.chunk where name = $1 and number < $3"
                                   " and exists (select 1 from ours)) " PUTS;
static const char was_put[] = "select 1 from mz_log.chunk where name = $1 and epoch = $2 and number = $3";
static const char confirms[] = "update mz_log.home set confirmed = confirmed + 1 where name = $1 and epoch = $2";

static uint64_t milliseconds(void) {
    struct timespec t;
    clock_gettime(CLOCK_MONOTONIC, &t);
    return (uint64_t)t.tv_sec * 1000 + (uint64_t)t.tv_nsec / 1000000;
}

static void rest(unsigned ms) { usleep(ms * 1000); }

/* ---- statements */

static void hear_notice(void *context, const PGresult *notice) {
    const char *severity = PQresultErrorField(notice, PG_DIAG_SEVERITY_NONLOCALIZED);
    if (severity && !strcmp(severity, "WARNING")) *(_Atomic int *)context = 1;
}

/* Whether what failed may succeed once it is asked again: the way broke, the server starts or ends, or others were in the way. */
static int is_passing(const PGconn *c, const PGresult *r) {
    const char *state = PQresultErrorField(r, PG_DIAG_SQLSTATE);
    return PQstatus(c) != CONNECTION_OK || !state || !strncmp(state, "57P", 3) || !strncmp(state, "08", 2) || !strncmp(state, "40", 2) ||
           !strcmp(state, "25006"); /* read only: it isn't promoted yet */
}

static int is_connected(postgres_log *log, PGconn **c, const char *begins) {
    if (*c && PQstatus(*c) == CONNECTION_OK) return 1;
    PQfinish(*c);
    *c = PQconnectdb(log->words);
    PQsetNoticeReceiver(*c, hear_notice, &log->is_unsure);
    PGresult *r = PQstatus(*c) == CONNECTION_OK ? PQexec(*c, begins) : NULL;
    int is = r && PQresultStatus(r) == PGRES_COMMAND_OK;
    PQclear(r);
    return is;
}

typedef struct { const char *at[MOST]; int length[MOST], count; uint64_t big[MOST]; } given;

static void give_number(given *g, uint64_t n) {
    g->big[g->count] = htobe64(n);
    g->at[g->count] = (const char *)&g->big[g->count];
    g->length[g->count++] = sizeof n;
}

static void give_bytes(given *g, const void *bytes, size_t count) {
    g->at[g->count] = (const char *)bytes;
    g->length[g->count++] = (int)count;
}

static given name_given(const postgres_log *log) {
    given g = {.count = 0};
    give_bytes(&g, log->name, strlen(log->name));
    return g;
}

/* What a statement answered, asked until somebody answers; NULL where nobody did for so long, or it was refused, which is named. Where a
 * try before the last may have been done *is_again is 1. */
static PGresult *answered(postgres_log *log, const char *sql, const given *g, int *is_again) {
    static const int binary[MOST] = {1, 1, 1, 1, 1};
    static faults refused = {.lock = PTHREAD_MUTEX_INITIALIZER};
    *is_again = 0;
    for (uint64_t until = milliseconds() + PATIENCE * 1000; milliseconds() < until; rest(10)) {
        if (!is_connected(log, &log->to, "set synchronous_commit = on")) continue;
        PGresult *r = PQexecParams(log->to, sql, g->count, NULL, g->at, g->length, binary, 1);
        ExecStatusType status = PQresultStatus(r);
        if (status == PGRES_COMMAND_OK || status == PGRES_TUPLES_OK) return r;
        int passes = is_passing(log->to, r);
        if (!passes) fault_seen(&refused, "postgres", PQresultErrorMessage(r));
        PQclear(r);
        if (!passes) return NULL;
        *is_again = 1;
    }
    return NULL;
}

static uint64_t number_of(const PGresult *r, int column) {
    uint64_t n = 0;
    memcpy(&n, PQgetvalue(r, 0, column), sizeof n);
    return be64toh(n);
}

/* How many rows a statement changed or found; -1 as `answered` says. */
static int rows_of(postgres_log *log, const char *sql, const given *g, int *is_again) {
    PGresult *r = answered(log, sql, g, is_again);
    int rows = !r ? -1 : PQresultStatus(r) == PGRES_TUPLES_OK ? PQntuples(r) : atoi(PQcmdTuples(r));
    PQclear(r);
    return rows;
}

/* Whether the epoch is ours, with all that was committed before on the standbys too. */
static int is_confirmed(postgres_log *log) {
    given g = name_given(log);
    give_number(&g, log->epoch);
    int is_again;
    for (;;) {
        log->is_unsure = 0;
        if (rows_of(log, confirms, &g, &is_again) != 1) return 0;
        if (!log->is_unsure) return 1;
    }
}

/* ---- a standby */

/* Where the row of a log is gone, epochs go on far above those that its chunks have: some may have been taken and
 * have no chunk. */
static const char begins_log[] =
    "insert into mz_log.home select $1::text, coalesce(max(c.epoch) + 4294967296, 0), 0, $2::int8, 0, 0, 0"
    " from mz_log.chunk c where c.name = $1::text on conflict do nothing";

/* The tables, and a row of this log. */
static int is_made(postgres_log *log) {
    given g = name_given(log), alone = name_given(log);
    int is_again;
    give_number(&g, log->drawn);
    while (!is_connected(log, &log->to, "set synchronous_commit = on")) rest(log->silence / BEATS);
    PGresult *r = PQexec(log->to, "select to_regclass('mz_log.chunk') is null");
    int is_new = PQresultStatus(r) != PGRES_TUPLES_OK || PQgetvalue(r, 0, 0)[0] == 't';
    PQclear(r);
    if (is_new) PQclear(PQexec(log->to, schema));
    return rows_of(log, begins_log, &g, &is_again) >= 0 &&
           rows_of(log, "insert into mz_log.beat values ($1::text, 0) on conflict do nothing", &alone, &is_again) >= 0;
}

/* Epoch and beats of now; 0 where nobody answered. */
static int is_seen(postgres_log *log, uint64_t *epoch, uint64_t *beats) {
    given g = name_given(log);
    static const int binary[] = {1};
    if (!is_connected(log, &log->to, "set synchronous_commit = on")) return 0;
    PGresult *r = PQexecParams(log->to, "select h.epoch, b.beats from mz_log.home h join mz_log.beat b using (name) where name = $1",
                               g.count, NULL, g.at, g.length, binary, 1);
    int is = PQresultStatus(r) == PGRES_TUPLES_OK && PQntuples(r) == 1;
    if (is) *epoch = number_of(r, 0);
    if (is) *beats = number_of(r, 1);
    PQclear(r);
    return is;
}

/* Until nothing has changed for so long, by our own clock alone: it decides when to take over, and nothing else. What the epoch was
 * then. */
static uint64_t silent_epoch(postgres_log *log) {
    uint64_t epoch = 0, beats = 0, since = milliseconds();
    for (int is_known = 0; !is_known || milliseconds() - since <= log->silence; rest(log->silence / BEATS)) {
        uint64_t now_epoch, now_beats;
        int is = is_seen(log, &now_epoch, &now_beats);
        if (is && is_known && now_epoch == epoch && now_beats == beats) continue;
        if (is) epoch = now_epoch;
        if (is) beats = now_beats;
        is_known = is;
        since = milliseconds();
    }
    return epoch;
}

/* Takes the epoch where it is as it was seen. A try whose answer was lost is known by what was drawn. */
static int is_taken(postgres_log *log, uint64_t seen) {
    given g = name_given(log);
    int is_again;
    give_number(&g, seen);
    give_number(&g, log->drawn);
    int rows = rows_of(log, "update mz_log.home set epoch = epoch + 1, writer = $3 where name = $1 and epoch = $2", &g, &is_again);
    if (rows == 0 && is_again)
        rows = rows_of(log, "select 1 from mz_log.home where name = $1 and epoch = $2::int8 + 1 and writer = $3", &g, &is_again);
    if (rows != 1) return 0;
    log->epoch = seen + 1;
    return is_confirmed(log);
}

int postgres_log_await(postgres_log *log) {
    FILE *random = fopen("/dev/urandom", "r");
    int is_drawn = random && fread(&log->drawn, sizeof log->drawn, 1, random) == 1;
    if (random) fclose(random);
    log->drawn |= 1;
    while (is_drawn && !is_made(log)) rest(log->silence / BEATS);
    while (is_drawn && !is_taken(log, silent_epoch(log))) continue;
    return is_drawn;
}

uint64_t postgres_log_epoch(const postgres_log *log) { return log->epoch; }

int postgres_log_beat(postgres_log *log) {
    static const int binary[] = {1, 1};
    given g = name_given(log);
    give_number(&g, log->epoch);
    if (!is_connected(log, &log->beating, "set synchronous_commit = off")) return 1;
    PGresult *r = PQexecParams(log->beating, "update mz_log.beat set beats = beats + 1 where name = $1"
                               " and (select epoch from mz_log.home where name = $1) = $2", g.count, NULL, g.at, g.length, binary, 1);
    int is_lost = PQresultStatus(r) == PGRES_COMMAND_OK && atoi(PQcmdTuples(r)) == 0;
    PQclear(r);
    return !is_lost;
}

/* ---- the device */

/* One chunk, after the others or in their place. */
static int put(postgres_log *log, const void *bytes, size_t count, int is_in_place) {
    char sql[800];
    given g = name_given(log);
    int is_again;
    give_number(&g, log->epoch);
    give_number(&g, log->next);
    const given looks = g;
    give_bytes(&g, bytes, count);
    snprintf(sql, sizeof sql, is_in_place ? put_in_place : put_behind, is_in_place ? ", first = $3::int8" : "");
    log->is_unsure = 0;
    int rows = rows_of(log, sql, &g, &is_again);
    if (rows == 0 && is_again) rows = rows_of(log, was_put, &looks, &is_again);
    if (rows != 1 || ((is_again || log->is_unsure) && !is_confirmed(log))) return -1;
    if (is_in_place) log->first = log->next;
    log->next++;
    log->is_fresh = 1;
    return 0;
}

static int append(void *context, const void *bytes, size_t count) { return put((postgres_log *)context, bytes, count, 0); }

static int replace(void *context, const void *bytes, size_t count) { return put((postgres_log *)context, bytes, count, 1); }

/* What was appended is committed by then. Else it is asked for, so that who was superseded learns of it. */
static int sync_all(void *context) {
    postgres_log *log = (postgres_log *)context;
    int is = log->is_fresh || is_confirmed(log);
    log->is_fresh = 0;
    return is ? 0 : -1;
}

mz_device postgres_log_device(postgres_log *log) {
    const mz_device device = {log, append, sync_all, replace, postgres_log_close};
    return device;
}

/* ---- reading */

/* The last column: whether a chunk is none of the log's, as where its row was made again. */
static const char heads[] =
    "select h.session, h.first, h.next,"
    " (exists (select 1 from mz_log.chunk c where c.name = h.name and c.number < h.first)"
    " or exists (select 1 from mz_log.chunk c where c.name = h.name and c.number >= h.next))::int4::int8"
    " from mz_log.home h where h.name = $1 and h.epoch = $2";

static mz_code read_head(postgres_log *log, uint64_t *session) {
    given g = name_given(log);
    int is_again;
    give_number(&g, log->epoch);
    PGresult *r = answered(log, heads, &g, &is_again);
    int is_ours = r && PQntuples(r) == 1, is_damaged = is_ours && number_of(r, 3);
    if (is_ours) *session = number_of(r, 0);
    if (is_ours) log->first = number_of(r, 1);
    if (is_ours) log->next = number_of(r, 2);
    PQclear(r);
    return !is_ours ? MZ_LOG_FAILED : is_damaged ? MZ_DAMAGED : MZ_OK;
}

typedef struct { uint8_t *bytes; size_t count, room; } gathered;

static mz_code gather(gathered *g, const char *bytes, size_t length) {
    if (g->count + length > g->room) {
        size_t room = 2 * (g->count + length);
        uint8_t *more = (uint8_t *)realloc(g->bytes, room);
        if (!more) return MZ_MEMORY;
        g->bytes = more;
        g->room = room;
    }
    memcpy(g->bytes + g->count, bytes, length);
    g->count += length;
    return MZ_OK;
}

/* The chunks from this number on, up to `until`. */
static mz_code gather_page(postgres_log *log, gathered *all, uint64_t from, uint64_t until) {
    given g = name_given(log);
    int is_again;
    give_number(&g, from);
    give_number(&g, until);
    PGresult *r = answered(log, "select bytes from mz_log.chunk where name = $1 and number >= $2 and number < $3 order by number", &g,
                           &is_again);
    mz_code c = !r ? MZ_LOG_FAILED : (uint64_t)PQntuples(r) == until - from ? MZ_OK : MZ_DAMAGED;
    for (int i = 0; c == MZ_OK && i < PQntuples(r); i++) c = gather(all, PQgetvalue(r, i, 0), (size_t)PQgetlength(r, i, 0));
    PQclear(r);
    return c;
}

mz_code postgres_log_read(void *context, uint8_t **bytes, size_t *count, uint64_t *session) {
    postgres_log *log = (postgres_log *)context;
    gathered all = {NULL, 0, 0};
    mz_code c = read_head(log, session);
    for (uint64_t n = log->first, until; c == MZ_OK && n < log->next; n = until) {
        until = log->next - n < PAGE ? log->next : n + PAGE;
        c = gather_page(log, &all, n, until);
    }
    /* (another may have taken over, and replaced them) */
    if (c == MZ_DAMAGED && !is_confirmed(log)) c = MZ_LOG_FAILED;
    *bytes = all.bytes;
    *count = all.count;
    return c;
}

/* ---- its life */

void postgres_log_close(void *context) {
    postgres_log *log = (postgres_log *)context;
    if (!log) return;
    PQfinish(log->to);
    PQfinish(log->beating);
    free(log->words);
    free(log->name);
    free(log);
}

postgres_log *postgres_log_open(const char *words, const char *name, unsigned silence) {
    postgres_log *log = (postgres_log *)calloc(1, sizeof *log);
    if (!log) return NULL;
    log->words = strdup(words);
    log->name = strdup(name);
    log->silence = silence;
    if (log->words && log->name) return log;
    postgres_log_close(log);
    return NULL;
}
