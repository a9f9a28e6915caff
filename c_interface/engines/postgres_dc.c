#include "postgres_dc.h"
#include "faults.h"
#include "places.h"
#include "postgres_schema.h"
#include <endian.h>
#include <libpq-fe.h>

enum { RAISE_BEHIND = 200 }; /* so many numbers that came alone are forgotten in one step */
enum { INT8_OID = 20, INT4_OID = 23, BYTEA_OID = 17, ARRAYS = 5, PARAMETERS = 10 };

/* Bytes as they are sent; they grow. */
typedef struct { char *at; size_t length, room; } bytes;

/* arrays: of a batch's numbers, operations, tables, keys and values. */
typedef struct { PGconn *to; bytes arrays[ARRAYS]; } connection;

struct postgres_dc {
    char *words;
    uint64_t session;
    _Atomic uint64_t raised; /* the mark that was told last */
    _Atomic int is_begun;    /* the session: it was asked for once, and is served or refused */
    _Atomic int has_reserve;
    postgres_dc_durable durable;
    places places;
    connection connections[PLACES];
};

static void keep_quiet(void *context, const PGresult *notice) {
    (void)context;
    (void)notice;
}

/* What the server says of itself while it starts or ends is no fault of a statement. */
static void name_fault(const PGresult *r) {
    static faults seen = {.lock = PTHREAD_MUTEX_INITIALIZER};
    const char *state = PQresultErrorField(r, PG_DIAG_SQLSTATE), *message = PQresultErrorField(r, PG_DIAG_MESSAGE_PRIMARY);
    char what[200];
    if (!state || !strncmp(state, "57P", 3)) return;
    snprintf(what, sizeof what, "%s: %s", state, message ? message : "");
    fault_seen(&seen, "postgres", what);
}

/* Whether the server had no room for what it refused. */
static int is_want_of_room(const PGresult *r) {
    const char *state = PQresultErrorField(r, PG_DIAG_SQLSTATE);
    return state && !strcmp(state, "53100");
}

static int executed(PGconn *c, const char *sql) {
    PGresult *r = PQexec(c, sql);
    ExecStatusType status = PQresultStatus(r);
    if (status == PGRES_FATAL_ERROR) name_fault(r);
    PQclear(r);
    return status == PGRES_COMMAND_OK || status == PGRES_TUPLES_OK;
}

static int is_prepared(PGconn *c, const char *name, const char *sql) {
    PGresult *r = PQprepare(c, name, sql, 0, NULL);
    int ok = PQresultStatus(r) == PGRES_COMMAND_OK;
    if (!ok) name_fault(r);
    PQclear(r);
    return ok;
}

static int has_tables(PGconn *c) {
    PGresult *r = PQexec(c, "select to_regproc('mz.perform_many') is not null");
    int has = PQresultStatus(r) == PGRES_TUPLES_OK && PQgetvalue(r, 0, 0)[0] == 't';
    PQclear(r);
    return has;
}

/* 1 where it is served, 0 where it is refused, -1 where nobody answered. */
static int begins(PGconn *c, uint64_t session, uint64_t former) {
    char begin[100];
    snprintf(begin, sizeof begin, "select mz.begin_session(%lld, %lld)", (long long)session, (long long)former);
    PGresult *r = PQexec(c, begin);
    int served = PQresultStatus(r) == PGRES_TUPLES_OK ? PQgetvalue(r, 0, 0)[0] == 't' : -1;
    PQclear(r);
    return served;
}

static int are_made(PGconn *c) {
    static const char *const all[] = {schema, schema_of_one, schema_of_new, schema_of_rest, schema_of_many, NULL};
    int i = 0;
    while (all[i] && executed(c, all[i])) i++;
    return !all[i];
}

static int is_begun(postgres_dc *dc, PGconn *c) {
    if (dc->is_begun) return 1;
    if (!has_tables(c) && !(are_made(c))) return 0;
    return dc->is_begun = !dc->session || begins(c, dc->session, 0) >= 0;
}

/* A plan that is made while a table is small has to be good when it isn't: it goes by the index. */
static int is_ready(postgres_dc *dc, PGconn *c) {
    return PQstatus(c) == CONNECTION_OK && is_begun(dc, c) &&
           executed(c, dc->durable == POSTGRES_DC_LATER ? "set synchronous_commit = off" : "set synchronous_commit = on") &&
           executed(c, "set plan_cache_mode = force_generic_plan; set enable_seqscan = off; set enable_bitmapscan = off;"
                       "set enable_hashjoin = off; set enable_mergejoin = off; set jit = off") &&
           is_prepared(c, "perform", "select * from mz.perform($1, $2, $3, $4, $5, $6, $7)") &&
           is_prepared(c, "many", "select * from mz.perform_many($1, $2, $3, $4, $5, $6, $7, $8, $9, $10)") &&
           is_prepared(c, "raise", "select mz.raise_mark($1, $2, $3)") &&
           is_prepared(c, "keep", "select mz.raise_mark($1, $2, $3) from set_config('synchronous_commit', 'on', true)");
}

/* The connection of a place, made anew where it broke; or NULL. */
static PGconn *connected(postgres_dc *dc, int place) {
    PGconn **c = &dc->connections[place].to;
    if (*c && PQstatus(*c) == CONNECTION_OK) return *c;
    PQfinish(*c);
    *c = PQconnectdb(dc->words);
    PQsetNoticeReceiver(*c, keep_quiet, NULL);
    if (is_ready(dc, *c)) return *c;
    PQfinish(*c);
    return *c = NULL;
}

/* ---- values in the binary format */

typedef struct { const char *at[PARAMETERS]; int length[PARAMETERS]; uint64_t big[PARAMETERS]; int count; } words;

static void put_number(words *w, uint64_t n, int bytes) {
    w->big[w->count] = bytes == 8 ? htobe64(n) : htobe32((uint32_t)n);
    w->at[w->count] = (const char *)&w->big[w->count];
    w->length[w->count++] = bytes;
}

static void put_bytes(words *w, const void *at, size_t length) {
    w->at[w->count] = (const char *)at;
    w->length[w->count++] = (int)length;
}

static uint64_t big8(const char *at) {
    uint64_t n;
    memcpy(&n, at, sizeof n);
    return be64toh(n);
}

static uint32_t big4(const char *at) {
    uint32_t n;
    memcpy(&n, at, sizeof n);
    return be32toh(n);
}

static void append(bytes *b, const void *at, size_t length) {
    memcpy(b->at + b->length, at, length);
    b->length += length;
}

static void append4(bytes *b, uint32_t n) { append(b, &(uint32_t){htobe32(n)}, 4); }

/* An entry of an array. */
static void append_number(bytes *b, uint64_t n, uint32_t length) {
    append4(b, length);
    if (length == 4) append4(b, (uint32_t)n);
    else append(b, &(uint64_t){htobe64(n)}, 8);
}

/* An array of one dimension, counted from 1, without nulls, with room for its entries; 0 where there is no memory. */
static int is_array(bytes *b, uint32_t of, size_t count, size_t longest) {
    size_t wanted = 20 + count * (4 + longest);
    if (wanted > b->room) {
        char *more = (char *)realloc(b->at, wanted);
        if (!more) return 0;
        b->at = more;
        b->room = wanted;
    }
    b->length = 0;
    for (const uint32_t *n = (const uint32_t[]){1, 0, of, (uint32_t)count, 1}, *end = n + 5; n < end; n++) append4(b, *n);
    return 1;
}

static int are_arrays(connection *c, const mz_wire *w, size_t count) {
    bytes *a = c->arrays;
    if (!is_array(&a[0], INT8_OID, count, 8) || !is_array(&a[1], INT4_OID, count, 4) || !is_array(&a[2], INT4_OID, count, 4) ||
        !is_array(&a[3], INT8_OID, count, 8) || !is_array(&a[4], BYTEA_OID, count, MZ_VALUE))
        return 0;
    for (size_t i = 0; i < count; i++) {
        int has_value = w[i].op == MZ_INSERT || w[i].op == MZ_UPDATE;
        append_number(&a[0], w[i].number, 8);
        append_number(&a[1], w[i].op, 4);
        append_number(&a[2], w[i].record.table, 4);
        append_number(&a[3], w[i].record.key, 8);
        append4(&a[4], has_value ? MZ_VALUE : 0);
        if (has_value) append(&a[4], w[i].value, MZ_VALUE);
    }
    return 1;
}

static const int binary[PARAMETERS] = {1, 1, 1, 1, 1, 1, 1, 1, 1, 1};

static int is_sent(PGconn *c, const char *prepared, const words *w) {
    return PQsendQueryPrepared(c, prepared, w->count, w->at, w->length, binary, 1);
}

/* One row in the binary format, or NULL; *is_full: for want of room. */
static PGresult *row_of(PGconn *c, int *is_full) {
    PGresult *row = NULL;
    for (PGresult *r; (r = PQgetResult(c));) {
        if (!row && PQresultStatus(r) == PGRES_TUPLES_OK && PQntuples(r) == 1) {
            row = r;
            continue;
        }
        *is_full = PQresultStatus(r) == PGRES_FATAL_ERROR && is_want_of_room(r);
        if (PQresultStatus(r) == PGRES_FATAL_ERROR && !*is_full) name_fault(r);
        PQclear(r);
    }
    return row;
}

static int raised(const postgres_dc *dc, PGconn *c, const char *prepared, uint64_t incarnation, uint64_t mark) {
    words w = {.count = 0};
    put_number(&w, dc->session, 8);
    put_number(&w, incarnation, 8);
    put_number(&w, mark, 8);
    int is_full;
    PGresult *r = is_sent(c, prepared, &w) ? row_of(c, &is_full) : NULL;
    int is_raised = r && PQgetvalue(r, 0, 0)[0];
    PQclear(r);
    return is_raised;
}

/* ---- wires */

static void put_reply(const mz_wire *w, int said, const char *was, int length, mz_reply *reply) {
    memset(reply, 0, sizeof *reply);
    reply->number = w->number;
    reply->incarnation = w->incarnation;
    reply->said = (mz_said)said;
    if (length == MZ_VALUE) memcpy(reply->value, was, MZ_VALUE);
}

/* Of a wire by itself. */
static mz_carried told(const PGresult *r, const mz_wire *w, mz_reply *reply, mz_news *news) {
    int said = (signed char)PQgetvalue(r, 0, 0)[3];
    if (said < 0) return MZ_RETIRED;
    news->incarnation = big8(PQgetvalue(r, 0, 2));
    news->mark = big8(PQgetvalue(r, 0, 3));
    if (!said) return MZ_RESTARTED;
    put_reply(w, said, PQgetvalue(r, 0, 1), PQgetlength(r, 0, 1), reply);
    return MZ_REPLIED;
}

/* Of a batch. */
static mz_carried all_told(const PGresult *r, const mz_wire *w, size_t count, mz_reply *replies, mz_news *news) {
    int state = (signed char)PQgetvalue(r, 0, 0)[3];
    if (state < 0) return MZ_RETIRED;
    if (!state) {
        news->incarnation = big8(PQgetvalue(r, 0, 1));
        news->mark = big8(PQgetvalue(r, 0, 2));
        return MZ_RESTARTED;
    }
    const char *saids = PQgetvalue(r, 0, 3), *wases = PQgetvalue(r, 0, 4);
    if (PQgetlength(r, 0, 3) < 20 || PQgetlength(r, 0, 4) < 20 || big4(saids + 12) != count || big4(wases + 12) != count) return MZ_LOST;
    saids += 20;
    wases += 20;
    for (size_t i = 0; i < count; i++) {
        int length = (int)big4(wases);
        put_reply(&w[i], (int)big4(saids + 4), wases + 4, length, &replies[i]);
        saids += 8;
        wases += 4 + length;
    }
    return MZ_REPLIED;
}

/* Where it is gone, it is made again, if there is room. */
static int has_reserve(postgres_dc *dc, PGconn *c) {
    if (!dc->has_reserve) {
        PGresult *r = PQexec(c, "select mz.fill_reserve()");
        dc->has_reserve = PQresultStatus(r) == PGRES_TUPLES_OK;
        PQclear(r);
    }
    return dc->has_reserve;
}

/* Whether all of them find room where there is none. */
static int are_needed(const mz_wire *w, size_t count) {
    while (count > 0 && mz_finds_room(&w[count - 1])) count--;
    return !count;
}

/* A late wire of a former session raises nothing: its mark is of other numbers. */
static int one_sent(postgres_dc *dc, PGconn *c, const mz_wire *wire) {
    words w = {.count = 0};
    if (wire->session == dc->session && wire->low_water > dc->raised + RAISE_BEHIND &&
        raised(dc, c, "raise", wire->incarnation, wire->low_water))
        dc->raised = wire->low_water;
    put_number(&w, wire->session, 8);
    put_number(&w, wire->incarnation, 8);
    put_number(&w, wire->number, 8);
    put_number(&w, wire->op, 4);
    put_number(&w, wire->record.table, 4);
    put_number(&w, wire->record.key, 8);
    put_bytes(&w, wire->value, MZ_VALUE);
    return is_sent(c, "perform", &w);
}

static int many_sent(connection *c, const mz_wire *wires, size_t count) {
    words w = {.count = 0};
    uint64_t mark = 0, least = UINT64_MAX, most = 0;
    for (size_t i = 0; i < count; i++) {
        if (wires[i].low_water > mark) mark = wires[i].low_water;
        if (wires[i].number < least) least = wires[i].number;
        if (wires[i].number > most) most = wires[i].number;
    }
    const uint64_t numbers[] = {wires->session, wires->incarnation, mark, least, most};
    for (int i = 0; i < 5; i++) put_number(&w, numbers[i], 8);
    if (!are_arrays(c, wires, count)) return 0;
    for (int i = 0; i < ARRAYS; i++) put_bytes(&w, c->arrays[i].at, c->arrays[i].length);
    return is_sent(c->to, "many", &w);
}

/* Alone it takes no lock of all others. */
static int sent(postgres_dc *dc, int place, const mz_wire *wires, size_t count) {
    connection *c = &dc->connections[place];
    return count == 1 ? one_sent(dc, c->to, wires) : many_sent(c, wires, count);
}

int postgres_dc_send(postgres_dc *dc, const mz_wire *wires, size_t count) {
    int place = place_take(&dc->places);
    PGconn *c = connected(dc, place);
    if (c && (are_needed(wires, count) || has_reserve(dc, c)) && sent(dc, place, wires, count)) return place;
    place_give(&dc->places, place);
    return -1;
}

mz_carried postgres_dc_receive(postgres_dc *dc, int place, const mz_wire *wires, size_t count, mz_reply *replies, mz_news *news) {
    PGconn *c = dc->connections[place].to;
    int is_full = 0;
    PGresult *r = row_of(c, &is_full);
    if (!r && is_full && are_needed(wires, count)) {
        dc->has_reserve = 0;
        if (executed(c, "truncate mz.reserve") && sent(dc, place, wires, count)) r = row_of(c, &is_full);
    }
    mz_carried carried = !r ? MZ_LOST : count == 1 ? told(r, wires, replies, news) : all_told(r, wires, count, replies, news);
    PQclear(r);
    place_give(&dc->places, place);
    return carried;
}

static int send_batch(void *dc, const mz_wire *wires, size_t count) { return postgres_dc_send((postgres_dc *)dc, wires, count); }

static mz_carried receive_batch(void *dc, int place, const mz_wire *wires, size_t count, mz_reply *replies, mz_news *news) {
    return postgres_dc_receive((postgres_dc *)dc, place, wires, count, replies, news);
}

mz_batched postgres_dc_batched(postgres_dc *dc) { return (mz_batched){dc, send_batch, receive_batch, MZ_BATCH}; }

mz_carried postgres_dc_perform_many(postgres_dc *dc, const mz_wire *wires, size_t count, mz_reply *replies, mz_news *news) {
    const mz_batched to = postgres_dc_batched(dc);
    return mz_carry_batch(&to, wires, count, replies, news);
}

mz_carried postgres_dc_perform(postgres_dc *dc, const mz_wire *wire, mz_reply *reply, mz_news *news) {
    return postgres_dc_perform_many(dc, wire, 1, reply, news);
}

int postgres_dc_begin(postgres_dc *dc, uint64_t session, uint64_t former) {
    int place = place_take(&dc->places);
    PGconn *c = connected(dc, place);
    int is_served = c && begins(c, session, former) == 1;
    if (is_served) dc->session = session;
    if (is_served) dc->raised = 0;
    place_give(&dc->places, place);
    return is_served;
}

int postgres_dc_keep(postgres_dc *dc, uint64_t incarnation, uint64_t mark) {
    int place = place_take(&dc->places);
    PGconn *c = connected(dc, place);
    int is_kept = c && raised(dc, c, "keep", incarnation, mark);
    place_give(&dc->places, place);
    return is_kept;
}

int postgres_dc_execute(postgres_dc *dc, const char *sql) {
    int place = place_take(&dc->places);
    PGconn *c = connected(dc, place);
    int is_done = c && executed(c, sql);
    place_give(&dc->places, place);
    return is_done;
}

postgres_dc *postgres_dc_open(const char *words, uint64_t session, postgres_dc_durable durable) {
    postgres_dc *dc = calloc(1, sizeof *dc);
    if (!dc || !(dc->words = strdup(words))) {
        free(dc);
        return NULL;
    }
    dc->session = session;
    dc->durable = durable;
    places_new(&dc->places);
    return dc;
}

void postgres_dc_close(postgres_dc *dc) {
    if (!dc) return;
    for (int i = 0; i < PLACES; i++) {
        PQfinish(dc->connections[i].to);
        for (int k = 0; k < ARRAYS; k++) free(dc->connections[i].arrays[k].at);
    }
    free(dc->words);
    free(dc);
}
