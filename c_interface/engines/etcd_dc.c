#include "etcd_dc.h"
#include "etcd_post.h"
#include "faults.h"
#include "places.h"
#include <stdarg.h>

/* MOST: wires of a batch. etcd takes 128 operations in a transaction, and as many comparisons; before the wires are two. */
enum { RAISE_BEHIND = 1000, KEY = 48, BODY = 1 << 18, LIFE = 32, MOST = 120, RESERVE = 64 << 20 };

#define COMPONENT "Y29tcG9uZW50" /* "component" */
#define MARK "bWFyaw=="          /* "mark" */
#define FIRST_NUMBER "cC8="      /* "p/" */
#define BEHIND_NUMBERS "cDA="    /* "p0" */

typedef struct { etcd_connection to; int is_known; char life[LIFE], body[BODY]; } connection;

struct etcd_dc {
    char *members;
    uint64_t session;
    _Atomic uint64_t raised; /* the mark that was told last */
    _Atomic int is_retired;  /* another session is served */
    _Atomic uint64_t quota;  /* 0: none is known */
    _Atomic int is_low;      /* less than the reserve was left of it when it was looked at */
    _Atomic time_t looked;
    places places;
    connection connections[PLACES];
};

/* ---- keys and values */

/* Text that is added to. */
typedef struct { char *at, *end; } writer;

static void add(writer *w, const char *format, ...) {
    va_list words;
    va_start(words, format);
    int length = vsnprintf(w->at, (size_t)(w->end - w->at), format, words);
    va_end(words);
    w->at = length >= 0 && length < w->end - w->at ? w->at + length : w->end - 1;
}

static const char *coded_hex(char to[ETCD_TEXT], const char *before, uint64_t n) {
    char text[KEY];
    return etcd_coded(to, text, (size_t)snprintf(text, sizeof text, "%s%016llx", before, (unsigned long long)n));
}

static const char *coded_record(char to[ETCD_TEXT], const mz_record *r) {
    char text[KEY];
    return etcd_coded(to, text, (size_t)snprintf(text, sizeof text, "r/%04x/%016llx", r->table, (unsigned long long)r->key));
}

/* What stands under `component`. */
static const char *coded_component(char to[ETCD_TEXT], uint64_t session, uint64_t incarnation, const char *life) {
    char text[KEY + LIFE];
    const unsigned long long numbers[] = {session, incarnation};
    return etcd_coded(to, text, (size_t)snprintf(text, sizeof text, "%016llx%016llx%s", numbers[0], numbers[1], life));
}

typedef struct { uint64_t session, incarnation; char life[LIFE]; int is_there; } standing;

static standing standing_in(etcd_part response) {
    standing s = {.is_there = 0};
    char text[KEY + LIFE] = "", digits[17] = "";
    const char *value = etcd_field(response, "value");
    if (!value || etcd_decoded(value, (uint8_t *)text, sizeof text - 1) < 33) return s;
    memcpy(digits, text, 16);
    s.session = strtoull(digits, NULL, 16);
    memcpy(digits, text + 16, 16);
    s.incarnation = strtoull(digits, NULL, 16);
    snprintf(s.life, sizeof s.life, "%.*s", LIFE - 1, text + 32);
    s.is_there = 1;
    return s;
}

static uint64_t hex_in(etcd_part response) {
    char digits[17] = "";
    const char *value = etcd_field(response, "value");
    if (value) etcd_decoded(value, (uint8_t *)digits, 16);
    return strtoull(digits, NULL, 16);
}

/* ---- the incarnation */

/* The cluster's id, which each response begins with. */
static void hear_life(connection *c) {
    const char *id = etcd_field(etcd_whole(&c->to), "cluster_id");
    size_t length = id ? strspn(id, "0123456789") : 0;
    snprintf(c->life, sizeof c->life, "%.*s", (int)length, id ? id : "");
}

/* Puts what is to stand under `component`, where it still is as it was found, and the session hasn't ended. What was performed in
 * another session is forgotten, and that one has ended. */
static int is_begun(connection *c, uint64_t session, const standing *was, uint64_t incarnation) {
    char now[ETCD_TEXT], before[ETCD_TEXT], zero[ETCD_TEXT], as_found[2 * ETCD_TEXT], forgets[4 * ETCD_TEXT] = "";
    char ended[ETCD_TEXT], ends[2 * ETCD_TEXT] = "", former[ETCD_TEXT];
    coded_component(now, session, incarnation, c->life);
    if (was->is_there && was->session != session)
        snprintf(ends, sizeof ends, ",{\"request_put\":{\"key\":\"%s\",\"value\":\"MQ==\"}}", coded_hex(former, "ended/", was->session));
    if (was->is_there)
        snprintf(as_found, sizeof as_found, "\"target\":\"VALUE\",\"value\":\"%s\"", coded_component(before, was->session, was->incarnation, was->life));
    else
        snprintf(as_found, sizeof as_found, "\"target\":\"CREATE\",\"create_revision\":\"0\"");
    if (was->session != session || !was->is_there)
        snprintf(forgets, sizeof forgets, ",{\"request_put\":{\"key\":\"" MARK "\",\"value\":\"%s\"}},"
                 "{\"request_delete_range\":{\"key\":\"" FIRST_NUMBER "\",\"range_end\":\"" BEHIND_NUMBERS "\"}}", coded_hex(zero, "", 0));
    snprintf(c->body, BODY, "{\"compare\":[{\"key\":\"" COMPONENT "\",\"result\":\"EQUAL\",%s},"
             "{\"key\":\"%s\",\"target\":\"CREATE\",\"result\":\"EQUAL\",\"create_revision\":\"0\"}],"
             "\"success\":[{\"request_put\":{\"key\":\"" COMPONENT "\",\"value\":\"%s\"}}%s%s]}",
             as_found, coded_hex(ended, "ended/", session), now, forgets, ends);
    return etcd_post(&c->to, "kv/txn", c->body) == ETCD_DONE;
}

/* What stands under `component`. 0 where nobody answered. */
static int is_read(connection *c, standing *s) {
    if (etcd_post(&c->to, "kv/txn", "{\"success\":[{\"request_range\":{\"key\":\"" COMPONENT "\"}}]}") != ETCD_DONE) return 0;
    hear_life(c);
    *s = standing_in(etcd_response(etcd_whole(&c->to), 0));
    return 1;
}

/* Whether this is the cluster, in the session, that it was. Another cluster, or one that knows less than the wire, has
 * lost: it is the next incarnation, above the greater of what is stored and what is known, before anything is answered. So
 * is one that knows of no session: it is new, or lost all. */
static int is_known(etcd_dc *dc, connection *c, uint64_t known) {
    if (c->to.fd < 0) c->is_known = 0;
    for (int tries = 0; !c->is_known && tries < 3; tries++) {
        standing s;
        dc->is_retired = 0;
        if (!is_read(c, &s)) return 0;
        dc->is_retired = s.is_there ? s.session != dc->session : !dc->session;
        if (dc->is_retired) return 0;
        c->is_known = s.is_there && !strcmp(s.life, c->life) && s.incarnation >= known;
        uint64_t greatest = s.is_there && s.incarnation > known ? s.incarnation : known;
        if (!c->is_known && !is_begun(c, dc->session, &s, greatest + 1)) return 0;
    }
    return c->is_known;
}

/* ---- the mark */

/* What no kept number needs is given up: revisions before the one before the least at which one was put. */
static void compact(connection *c, uint64_t now) {
    snprintf(c->body, BODY, "{\"key\":\"" FIRST_NUMBER "\",\"range_end\":\"" BEHIND_NUMBERS "\",\"limit\":1,\"sort_order\":\"ASCEND\","
             "\"sort_target\":\"MOD\",\"keys_only\":true}");
    if (etcd_post(&c->to, "kv/range", c->body) != ETCD_DONE) return;
    uint64_t least = etcd_number(etcd_whole(&c->to), "mod_revision");
    snprintf(c->body, BODY, "{\"revision\":\"%llu\"}", (unsigned long long)(least ? least : now) - 1);
    (void)etcd_post(&c->to, "kv/compaction", c->body); /* refused where another was ahead */
}

/* The mark rises, and what is at or under it is forgotten, for a wire of this incarnation alone. */
static int is_raised(etcd_dc *dc, connection *c, uint64_t incarnation, uint64_t mark) {
    char component[ETCD_TEXT], value[ETCD_TEXT], behind[ETCD_TEXT];
    coded_component(component, dc->session, incarnation, c->life);
    snprintf(c->body, BODY, "{\"compare\":[{\"key\":\"" COMPONENT "\",\"target\":\"VALUE\",\"result\":\"EQUAL\",\"value\":\"%s\"}],"
             "\"success\":[{\"request_txn\":{\"compare\":[{\"key\":\"" MARK "\",\"target\":\"VALUE\",\"result\":\"LESS\",\"value\":\"%s\"}],"
             "\"success\":[{\"request_put\":{\"key\":\"" MARK "\",\"value\":\"%s\"}},"
             "{\"request_delete_range\":{\"key\":\"" FIRST_NUMBER "\",\"range_end\":\"%s\"}}]}}]}",
             component, coded_hex(value, "", mark), value, coded_hex(behind, "p/", mark + 1));
    if (etcd_post(&c->to, "kv/txn", c->body) != ETCD_DONE || !etcd_field(etcd_whole(&c->to), "succeeded")) return 0;
    dc->raised = mark;
    compact(c, etcd_number(etcd_whole(&c->to), "revision"));
    return 1;
}

/* ---- wires */

/* What the operation does, and what it keeps under its number: "1" to "6" are what was said, by mz_said. */
static void add_operation(writer *to, const mz_wire *w) {
    char record[ETCD_TEXT], number[ETCD_TEXT], value[ETCD_TEXT];
    int inserts = w->op == MZ_INSERT;
    coded_record(record, &w->record);
    coded_hex(number, "p/", w->number);
    if (w->op == MZ_READ) {
        add(to, "{\"request_txn\":{\"success\":[{\"request_range\":{\"key\":\"%s\"}},{\"request_put\":{\"key\":\"%s\",\"value\":\"MQ==\"}}]}}",
            record, number);
        return;
    }
    add(to, "{\"request_txn\":{\"compare\":[{\"key\":\"%s\",\"target\":\"CREATE\",\"result\":\"%s\",\"create_revision\":\"0\"}],\"success\":[",
        record, inserts ? "EQUAL" : "GREATER");
    if (w->op == MZ_DELETE) add(to, "{\"request_delete_range\":{\"key\":\"%s\",\"prev_kv\":true}}", record);
    else add(to, "{\"request_put\":{\"key\":\"%s\",\"value\":\"%s\"%s}}", record, etcd_coded(value, w->value, MZ_VALUE), inserts ? "" : ",\"prev_kv\":true");
    add(to, ",{\"request_put\":{\"key\":\"%s\",\"value\":\"%s\"}}],\"failure\":[{\"request_put\":{\"key\":\"%s\",\"value\":\"%s\"}}]}}", number,
        inserts ? "Mw==" : "NA==", number, inserts ? "NQ==" : "Ng==");
}

/* Where each is to be performed all of them are; else what has to be known of them is read. */
static void put_wires(etcd_dc *dc, connection *c, const mz_wire *w, size_t count) {
    char component[ETCD_TEXT], number[ETCD_TEXT];
    uint64_t least = w->number;
    writer to = {c->body, c->body + BODY};
    for (size_t i = 1; i < count; i++)
        if (w[i].number < least) least = w[i].number;
    coded_component(component, dc->session, w->incarnation, c->life);
    add(&to, "{\"compare\":[{\"key\":\"" COMPONENT "\",\"target\":\"VALUE\",\"result\":\"EQUAL\",\"value\":\"%s\"},"
             "{\"key\":\"" MARK "\",\"target\":\"VALUE\",\"result\":\"LESS\",\"value\":\"%s\"}", component, coded_hex(number, "", least));
    for (size_t i = 0; i < count; i++)
        add(&to, ",{\"key\":\"%s\",\"target\":\"CREATE\",\"result\":\"EQUAL\",\"create_revision\":\"0\"}", coded_hex(number, "p/", w[i].number));
    add(&to, "],\"success\":[");
    for (size_t i = 0; i < count; i++) {
        if (i) add(&to, ",");
        add_operation(&to, &w[i]);
    }
    add(&to, "],\"failure\":[{\"request_range\":{\"key\":\"" COMPONENT "\"}},{\"request_range\":{\"key\":\"" MARK "\"}}");
    for (size_t i = 0; i < count; i++) add(&to, ",{\"request_range\":{\"key\":\"%s\"}}", coded_hex(number, "p/", w[i].number));
    add(&to, "]}");
}

/* 1: a record's value is there, 0: it isn't, -1: the response isn't whole. */
static int value_in(etcd_part response, uint8_t value[MZ_VALUE]) {
    const char *text = etcd_field(response, "value");
    if (!response.from) return -1;
    return !text ? 0 : etcd_decoded(text, value, MZ_VALUE) == MZ_VALUE ? 1 : -1;
}

/* Of a wire that was performed now, from the responses that are left. 0 where they aren't whole. */
static int is_said(etcd_part *left, const mz_wire *w, mz_reply *r) {
    etcd_part own = etcd_next(left), first = etcd_next(left);
    if (w->op != MZ_READ && !etcd_field(own, "succeeded")) {
        r->said = w->op == MZ_INSERT ? MZ_DUPLICATE : MZ_MISSING;
        return first.from != NULL;
    }
    int is_there = w->op == MZ_INSERT ? 0 : value_in(first, r->value);
    r->said = w->op == MZ_READ ? (is_there ? MZ_VALUE_IS : MZ_ABSENT) : w->op == MZ_INSERT ? MZ_DONE : MZ_DONE_WAS;
    return etcd_next(left).from && is_there >= 0 && (r->said != MZ_DONE_WAS || is_there);
}

/* A reply to each wire, of which what was said is still to come. */
static void begin_replies(const mz_wire *w, size_t count, mz_reply *r) {
    memset(r, 0, count * sizeof *r);
    for (size_t i = 0; i < count; i++) {
        r[i].number = w[i].number;
        r[i].incarnation = w[i].incarnation;
    }
}

typedef enum { NOBODY, PERFORMED, READ_ALONE } became;

/* What became of the transaction of these wires: it was performed, with their replies, or what has to be known was read. */
static became became_of(etcd_dc *dc, connection *c, const mz_wire *w, size_t count, mz_reply *r) {
    static faults seen = {.lock = PTHREAD_MUTEX_INITIALIZER};
    put_wires(dc, c, w, count);
    etcd_status status = etcd_post(&c->to, "kv/txn", c->body);
    if (status == ETCD_REFUSED) fault_seen(&seen, "etcd", c->to.in);
    if (status != ETCD_DONE) return NOBODY;
    etcd_part left = etcd_whole(&c->to);
    if (!etcd_field(left, "succeeded")) return READ_ALONE;
    begin_replies(w, count, r);
    for (size_t i = 0; i < count; i++)
        if (!is_said(&left, &w[i], &r[i])) return NOBODY;
    return PERFORMED;
}

/* What is kept of a number: what was said, 0 where it is to be performed, and the revision in which it was put. */
typedef struct { mz_said said; uint64_t revision; } kept;

/* The values of what was performed in these revisions: a record's, as it was read there or before it was written. */
static int have_values(connection *c, const mz_wire *w, size_t count, const kept *k, mz_reply *r) {
    char record[ETCD_TEXT];
    writer to = {c->body, c->body + BODY};
    size_t wanted = 0;
    add(&to, "{\"success\":[");
    for (size_t i = 0; i < count; i++) {
        if (k[i].said != MZ_VALUE_IS && k[i].said != MZ_DONE_WAS) continue;
        add(&to, "%s{\"request_range\":{\"key\":\"%s\",\"revision\":\"%llu\"}}", wanted++ ? "," : "", coded_record(record, &w[i].record),
            (unsigned long long)k[i].revision - (k[i].said == MZ_DONE_WAS));
    }
    add(&to, "]}");
    if (!wanted) return 1;
    if (etcd_post(&c->to, "kv/txn", c->body) != ETCD_DONE) return 0;
    etcd_part left = etcd_whole(&c->to);
    for (size_t i = 0; i < count; i++) {
        if (k[i].said != MZ_VALUE_IS && k[i].said != MZ_DONE_WAS) continue;
        int is_there = value_in(etcd_next(&left), r[i].value);
        if (is_there < 0 || (!is_there && k[i].said == MZ_DONE_WAS)) return 0;
        if (!is_there) r[i].said = MZ_ABSENT;
    }
    return 1;
}

/* What the responses keep of the numbers above the mark. 0 where they aren't whole. */
static int are_kept(etcd_part left, const mz_wire *w, size_t count, uint64_t mark, kept *k) {
    for (size_t i = 0; i < count; i++) {
        uint8_t digit = 0;
        etcd_part number = etcd_next(&left);
        const char *value = etcd_field(number, "value");
        if (!number.from || (value && etcd_decoded(value, &digit, 1) != 1)) return 0;
        k[i].said = w[i].number <= mark ? MZ_OLD : value ? (mz_said)(digit - '0') : (mz_said)0;
        k[i].revision = etcd_number(number, "mod_revision");
    }
    return 1;
}

/* Part of the wires is old or was performed: these get what was said, and the others are performed. */
static mz_carried rest_performed(etcd_dc *dc, connection *c, const mz_wire *w, size_t count, const kept *k, mz_reply *replies) {
    mz_wire fresh[MOST];
    mz_reply said[MOST];
    size_t places[MOST], left = 0;
    begin_replies(w, count, replies);
    for (size_t i = 0; i < count; i++) {
        replies[i].said = k[i].said;
        if (k[i].said) continue;
        places[left] = i;
        fresh[left++] = w[i];
    }
    if (!have_values(c, w, count, k, replies)) return MZ_LOST;
    if (left && became_of(dc, c, fresh, left, said) != PERFORMED) return MZ_LOST;
    for (size_t i = 0; i < left; i++) replies[places[i]] = said[i];
    return MZ_REPLIED;
}

/* Of what wasn't performed: it is for another incarnation, or part of it is old or was performed. */
static mz_carried not_performed(etcd_dc *dc, connection *c, const mz_wire *w, size_t count, mz_reply *replies, mz_news *news) {
    kept k[MOST];
    etcd_part left = etcd_whole(&c->to);
    standing s = standing_in(etcd_next(&left));
    if (s.is_there && s.session != dc->session) return MZ_RETIRED;
    if (!s.is_there) return MZ_LOST;
    news->incarnation = s.incarnation;
    news->mark = hex_in(etcd_next(&left));
    c->is_known = s.incarnation >= w->incarnation && !strcmp(s.life, c->life);
    if (!c->is_known) return MZ_LOST;
    if (s.incarnation != w->incarnation) return MZ_RESTARTED;
    return are_kept(left, w, count, news->mark, k) ? rest_performed(dc, c, w, count, k, replies) : MZ_LOST;
}

/* Whether there is room for what doesn't undo and isn't redone: looked at once a second. Pages that are free don't make the
 * database grow. */
static int has_room(etcd_dc *dc, connection *c) {
    time_t now = time(NULL);
    if (!dc->quota || dc->looked == now) return !dc->is_low;
    if (etcd_post(&c->to, "maintenance/status", "{}") != ETCD_DONE) return 0;
    uint64_t size = etcd_number(etcd_whole(&c->to), "dbSize"), used = etcd_number(etcd_whole(&c->to), "dbSizeInUse");
    dc->is_low = size + RESERVE > dc->quota && size - used < RESERVE / 2;
    dc->looked = now;
    return !dc->is_low;
}

void etcd_dc_quota(etcd_dc *dc, uint64_t bytes) {
    dc->quota = bytes;
    dc->is_low = 0;
    dc->looked = 0;
}

static mz_carried performed(etcd_dc *dc, connection *c, const mz_wire *w, size_t count, mz_reply *replies, mz_news *news) {
    uint64_t mark = 0;
    int is_needed = 1;
    for (size_t i = 0; i < count; i++) {
        is_needed &= mz_finds_room(&w[i]);
        if (w[i].low_water > mark) mark = w[i].low_water;
    }
    if (count > MOST) return MZ_LOST;
    if (!is_known(dc, c, w->incarnation)) return dc->is_retired ? MZ_RETIRED : MZ_LOST;
    if (w->session != dc->session) return MZ_RETIRED;
    if (!is_needed && !has_room(dc, c)) return MZ_LOST;
    if (mark > dc->raised + RAISE_BEHIND) is_raised(dc, c, w->incarnation, mark);
    if (!is_known(dc, c, w->incarnation)) return MZ_LOST;
    became what = became_of(dc, c, w, count, replies);
    return what == PERFORMED ? MZ_REPLIED : what == NOBODY ? MZ_LOST : not_performed(dc, c, w, count, replies, news);
}

mz_carried etcd_dc_perform_many(etcd_dc *dc, const mz_wire *wires, size_t count, mz_reply *replies, mz_news *news) {
    int place = place_take(&dc->places);
    mz_carried carried = performed(dc, &dc->connections[place], wires, count, replies, news);
    place_give(&dc->places, place);
    return carried;
}

mz_carried etcd_dc_perform(etcd_dc *dc, const mz_wire *wire, mz_reply *reply, mz_news *news) {
    return etcd_dc_perform_many(dc, wire, 1, reply, news);
}

static mz_carried receive(void *dc, int sent, const mz_wire *wires, size_t count, mz_reply *replies, mz_news *news) {
    (void)sent;
    return etcd_dc_perform_many((etcd_dc *)dc, wires, count, replies, news);
}

mz_batched etcd_dc_batched(etcd_dc *dc) { return (mz_batched){dc, NULL, receive, MOST}; }

int etcd_dc_begin(etcd_dc *dc, uint64_t session, uint64_t former) {
    int place = place_take(&dc->places), is_served = 0;
    connection *c = &dc->connections[place];
    standing s;
    for (int tries = 0; !is_served && tries < 6; tries++) {
        if (!is_read(c, &s)) continue; /* the next member */
        is_served = s.is_there && s.session == session;
        if (is_served || (s.is_there && s.session != former) || !is_begun(c, session, &s, s.is_there ? s.incarnation + 1 : 1)) break;
    }
    place_give(&dc->places, place);
    if (!is_served) return 0;
    dc->session = session;
    dc->raised = 0;
    for (int i = 0; i < PLACES; i++) dc->connections[i].is_known = 0;
    return 1;
}

int etcd_dc_keep(etcd_dc *dc, uint64_t incarnation, uint64_t mark) {
    int place = place_take(&dc->places);
    connection *c = &dc->connections[place];
    int is_kept = is_known(dc, c, incarnation) && is_raised(dc, c, incarnation, mark);
    place_give(&dc->places, place);
    return is_kept;
}

etcd_dc *etcd_dc_open(const char *members, uint64_t session) {
    etcd_dc *dc = calloc(1, sizeof *dc);
    if (!dc || !(dc->members = strdup(members))) {
        free(dc);
        return NULL;
    }
    dc->session = session;
    places_new(&dc->places);
    for (int i = 0; i < PLACES; i++) dc->connections[i].to = (etcd_connection){.members = dc->members, .fd = -1};
    return dc;
}

void etcd_dc_close(etcd_dc *dc) {
    if (!dc) return;
    for (int i = 0; i < PLACES; i++) etcd_let_go(&dc->connections[i].to);
    free(dc->members);
    free(dc);
}
