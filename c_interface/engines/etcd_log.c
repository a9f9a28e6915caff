#include "etcd_log.h"
#include "etcd_post.h"
#include "faults.h"
#include <ctype.h>
#include <time.h>

/* EPOCH: digits before a chunk's bytes. CHUNK: bytes of the log, well below the 1.5 MiB of a request once they are in base64. PAGE:
 * chunks of one read. */
enum { NAME = 32, KEY = 80, EPOCH = 16, CHUNK = 512 << 10, BODY = 1 << 20, PAGE = 64, COMPARES = 700, PATIENCE = 60, BEATS = 8 };

#ifdef UNFENCED
enum { IS_FENCED = 0 }; /* a control: a home that compares nothing */
#else
enum { IS_FENCED = 1 };
#endif

struct etcd_log {
    char *members, name[NAME + 1];
    unsigned silence;                  /* milliseconds */
    uint64_t epoch, drawn, first, next; /* the chunks that the log has: from first on, up to next */
    int is_fresh;                      /* appended to since the last sync */
    etcd_connection to, beating;
    char *body;
    uint8_t *chunk;
};

static uint64_t milliseconds(void) {
    struct timespec t;
    clock_gettime(CLOCK_MONOTONIC, &t);
    return (uint64_t)t.tv_sec * 1000 + (uint64_t)t.tv_nsec / 1000000;
}

static void rest(unsigned ms) { usleep(ms * 1000); }

/* ---- keys and values */

static const char *key(const etcd_log *log, char to[ETCD_TEXT], const char *what) {
    char text[KEY];
    return etcd_coded(to, text, (size_t)snprintf(text, sizeof text, "%s/%s", log->name, what));
}

static const char *chunk_key(const etcd_log *log, char to[ETCD_TEXT], uint64_t number) {
    char text[KEY];
    snprintf(text, sizeof text, "c/%016llx", (unsigned long long)number);
    return key(log, to, text);
}

static const char *coded_hex(char to[ETCD_TEXT], uint64_t n) {
    char text[KEY];
    return etcd_coded(to, text, (size_t)snprintf(text, sizeof text, "%016llx", (unsigned long long)n));
}

static const char *coded_end(char to[ETCD_TEXT], uint64_t first, uint64_t next) {
    char text[KEY];
    return etcd_coded(to, text, (size_t)snprintf(text, sizeof text, "%016llx%016llx", (unsigned long long)first, (unsigned long long)next));
}

/* The i-th number of 16 hex digits in the value of a response; 0 where there is none. */
static uint64_t hex_in(etcd_part response, int i) {
    char digits[2 * EPOCH + 1] = "", one[EPOCH + 1] = "";
    const char *value = etcd_field(response, "value");
    if (!value || etcd_decoded(value, (uint8_t *)digits, 2 * EPOCH) < (size_t)(i + 1) * EPOCH) return 0;
    memcpy(one, digits + i * EPOCH, EPOCH);
    return strtoull(one, NULL, 16);
}

static uint64_t response_hex(const etcd_connection *c, int response, int i) { return hex_in(etcd_response(etcd_whole(c), response), i); }

/* ---- transactions */

static int is_done(const etcd_connection *c) { return etcd_field(etcd_whole(c), "succeeded") != NULL; }

/* That the epoch is ours, as a comparison. */
static const char *ours(const etcd_log *log, char to[COMPARES]) {
    char e[ETCD_TEXT];
    snprintf(to, COMPARES, "{\"key\":\"%s\",\"target\":\"MOD\",\"result\":\"%s\",\"mod_revision\":\"%llu\"}", key(log, e, "epoch"),
             IS_FENCED ? "EQUAL" : "GREATER", IS_FENCED ? (unsigned long long)log->epoch : 0ull);
    return to;
}

#define IS_VALUE "{\"key\":\"%s\",\"target\":\"VALUE\",\"result\":\"EQUAL\",\"value\":\"%s\"}"
#define IS_NONE "{\"key\":\"%s\",\"target\":\"CREATE\",\"result\":\"EQUAL\",\"create_revision\":\"0\"}"
#define PUTS "{\"request_put\":{\"key\":\"%s\",\"value\":\"%s\"}}"

/* And that the end is as we know it. */
static const char *ours_here(const etcd_log *log, char to[COMPARES]) {
    char t[ETCD_TEXT], v[ETCD_TEXT];
    size_t length = strlen(ours(log, to));
    if (!IS_FENCED) return to;
    snprintf(to + length, COMPARES - length, "," IS_VALUE, key(log, t, "end"), coded_end(v, log->first, log->next));
    return to;
}

/* Posts `body` until somebody answers. 0: nobody did for so long, or it was refused, which is named. */
static int is_posted(etcd_connection *c, const char *path, const char *body) {
    static faults refused = {.lock = PTHREAD_MUTEX_INITIALIZER};
    for (uint64_t until = milliseconds() + PATIENCE * 1000; milliseconds() < until; rest(1)) {
        etcd_status status = etcd_post(c, path, body);
        if (status == ETCD_DONE) return 1;
        if (status == ETCD_REFUSED) return fault_seen(&refused, "etcd", c->in), 0;
    }
    return 0;
}

/* ---- a standby */

/* What NAME/epoch and NAME/beat are now. 0 where nobody answered. */
static int is_seen(etcd_log *log, uint64_t *epoch, uint64_t *beat) {
    char e[ETCD_TEXT], b[ETCD_TEXT];
    snprintf(log->body, BODY, "{\"success\":[{\"request_range\":{\"key\":\"%s\"}},{\"request_range\":{\"key\":\"%s\"}}]}",
             key(log, e, "epoch"), key(log, b, "beat"));
    if (etcd_post(&log->to, "kv/txn", log->body) != ETCD_DONE) return 0;
    *epoch = etcd_number(etcd_response(etcd_whole(&log->to), 0), "mod_revision");
    *beat = etcd_number(etcd_response(etcd_whole(&log->to), 1), "mod_revision");
    return 1;
}

/* Until nothing has changed for so long, by our own clock alone: it decides when to take over, and nothing else. What the epoch was
 * then. */
static uint64_t silent_epoch(etcd_log *log) {
    uint64_t epoch = 0, beat = 0, since = milliseconds();
    for (int is_known = 0; !is_known || milliseconds() - since <= log->silence; rest(log->silence / BEATS)) {
        uint64_t now_epoch, now_beat;
        int is = is_seen(log, &now_epoch, &now_beat);
        if (is && is_known && now_epoch == epoch && now_beat == beat) continue;
        if (is) epoch = now_epoch;
        if (is) beat = now_beat;
        is_known = is;
        since = milliseconds();
    }
    return epoch;
}

/* Takes the epoch where it is as it was seen. A try whose reply was lost is known by what was drawn. */
static int is_taken(etcd_log *log, uint64_t seen) {
    char e[ETCD_TEXT], b[ETCD_TEXT], v[ETCD_TEXT];
    key(log, e, "epoch");
    coded_hex(v, log->drawn);
    snprintf(log->body, BODY, "{\"compare\":[{\"key\":\"%s\",\"target\":\"MOD\",\"result\":\"EQUAL\",\"mod_revision\":\"%llu\"}],"
             "\"success\":[{\"request_put\":{\"key\":\"%s\",\"value\":\"%s\"}},{\"request_put\":{\"key\":\"%s\",\"value\":\"%s\"}}],"
             "\"failure\":[{\"request_range\":{\"key\":\"%s\"}}]}",
             e, (unsigned long long)seen, e, v, key(log, b, "beat"), v, e);
    if (!is_posted(&log->to, "kv/txn", log->body)) return 0;
    etcd_part whole = etcd_whole(&log->to), was = etcd_response(whole, 0);
    if (is_done(&log->to)) log->epoch = etcd_number(whole, "revision");
    else if (hex_in(was, 0) == log->drawn) log->epoch = etcd_number(was, "mod_revision");
    return log->epoch != 0;
}

int etcd_log_await(etcd_log *log) {
    FILE *random = fopen("/dev/urandom", "r");
    int is_drawn = random && fread(&log->drawn, sizeof log->drawn, 1, random) == 1;
    if (random) fclose(random);
    log->drawn |= 1;
    while (is_drawn && !is_taken(log, silent_epoch(log))) continue;
    return is_drawn;
}

uint64_t etcd_log_epoch(const etcd_log *log) { return log->epoch; }

/* 1 where the epoch is ours, 0 where it is another's, -1 where nobody answered; does this where it is ours. */
static int is_ours(etcd_log *log, etcd_connection *c, const char *does) {
    char compares[COMPARES], body[COMPARES + 400];
    snprintf(body, sizeof body, "{\"compare\":[%s],\"success\":[%s]}", ours(log, compares), does);
    return etcd_post(c, "kv/txn", body) == ETCD_DONE ? is_done(c) : -1;
}

int etcd_log_beat(etcd_log *log) {
    char b[ETCD_TEXT], v[ETCD_TEXT], does[300];
    snprintf(does, sizeof does, "{\"request_put\":{\"key\":\"%s\",\"value\":\"%s\"}}", key(log, b, "beat"), coded_hex(v, log->drawn));
    return is_ours(log, &log->beating, does) != 0;
}

/* ---- the device */

/* The bytes with our epoch before them, in base64, after the text that `body` has by now. */
static size_t put_chunk(etcd_log *log, size_t length, const uint8_t *bytes, size_t count) {
    snprintf((char *)log->chunk, EPOCH + 1, "%016llx", (unsigned long long)log->epoch);
    memcpy(log->chunk + EPOCH, bytes, count);
    etcd_coded(log->body + length, log->chunk, EPOCH + count);
    return length + strlen(log->body + length);
}

/* Chunk `number`, which nobody reads yet. Where it is the last of an append, the end moves over it, and what the log had is deleted
 * where these bytes take its place. */
static int is_put(etcd_log *log, uint64_t number, const uint8_t *bytes, size_t count, int is_last, uint64_t first) {
    char compares[COMPARES], c[ETCD_TEXT], t[ETCD_TEXT], end[ETCD_TEXT], from[ETCD_TEXT], to[ETCD_TEXT];
    size_t at = (size_t)snprintf(log->body, BODY, "{\"compare\":[%s],\"success\":[{\"request_put\":{\"key\":\"%s\",\"value\":\"",
                                 ours_here(log, compares), chunk_key(log, c, number));
    at = put_chunk(log, at, bytes, count);
    at += (size_t)snprintf(log->body + at, BODY - at, "\"}}");
    if (is_last) at += (size_t)snprintf(log->body + at, BODY - at, ",{\"request_put\":{\"key\":\"%s\",\"value\":\"%s\"}}",
                                        key(log, t, "end"), coded_end(end, first, number + 1));
    if (is_last && first != log->first) at += (size_t)snprintf(log->body + at, BODY - at,
        ",{\"request_delete_range\":{\"key\":\"%s\",\"range_end\":\"%s\"}}", chunk_key(log, from, 0), chunk_key(log, to, first));
    snprintf(log->body + at, BODY - at, "],\"failure\":[{\"request_range\":{\"key\":\"%s\"}},{\"request_range\":{\"key\":\"%s\"}}]}",
             key(log, t, "end"), c);
    if (!is_posted(&log->to, "kv/txn", log->body)) return 0;
    if (is_done(&log->to)) return 1;
    /* a try whose reply was lost was done: the end is after a chunk of ours */
    return is_last && response_hex(&log->to, 0, 1) == number + 1 && response_hex(&log->to, 1, 0) == log->epoch;
}

/* As several chunks where they are many. */
static int put(etcd_log *log, const uint8_t *bytes, size_t count, uint64_t first) {
    uint64_t number = log->next;
    for (size_t done = 0; done < count; number++) {
        size_t piece = count - done < CHUNK ? count - done : CHUNK;
        if (!is_put(log, number, bytes + done, piece, done + piece == count, first)) return -1;
        done += piece;
    }
    log->first = first;
    log->next = number;
    log->is_fresh = 1;
    return 0;
}

static int append(void *context, const void *bytes, size_t count) {
    etcd_log *log = (etcd_log *)context;
    return put(log, (const uint8_t *)bytes, count, log->first);
}

/* What was appended is with a majority by then. Else it is asked for, so that who was superseded learns of it. */
static int sync_all(void *context) {
    etcd_log *log = (etcd_log *)context;
    int is = log->is_fresh;
    log->is_fresh = 0;
    for (uint64_t until = milliseconds() + PATIENCE * 1000; !is && milliseconds() < until; rest(1)) {
        int answered = is_ours(log, &log->to, "");
        if (!answered) return -1;
        is = answered == 1;
    }
    return is ? 0 : -1;
}

static int replace(void *context, const void *bytes, size_t count) {
    etcd_log *log = (etcd_log *)context;
    char body[100];
    if (put(log, (const uint8_t *)bytes, count, log->next)) return -1;
    snprintf(body, sizeof body, "{\"revision\":\"%llu\"}", (unsigned long long)etcd_number(etcd_whole(&log->to), "revision"));
    (void)etcd_post(&log->to, "kv/compaction", body); /* refused where another was ahead */
    return 0;
}

mz_device etcd_log_device(etcd_log *log) {
    const mz_device device = {log, append, sync_all, replace, etcd_log_close};
    return device;
}

/* ---- reading */

/* A session, and the end of an empty log, are put where there is neither. */
static int is_begun(etcd_log *log, const char *session, const char *end) {
    char compares[COMPARES], v[ETCD_TEXT], none[ETCD_TEXT];
    snprintf(log->body, BODY, "{\"compare\":[%s," IS_NONE "," IS_NONE "],\"success\":[" PUTS "," PUTS "]}",
             ours(log, compares), session, end, session, coded_hex(v, log->drawn), end, coded_end(none, 0, 0));
    return is_posted(&log->to, "kv/txn", log->body);
}

/* The session, and where the log begins and ends; and the revision of all that. */
static mz_code read_head(etcd_log *log, uint64_t *session, uint64_t *revision) {
    char compares[COMPARES], s[ETCD_TEXT], t[ETCD_TEXT];
    if (!is_begun(log, key(log, s, "session"), key(log, t, "end"))) return MZ_LOG_FAILED;
    snprintf(log->body, BODY, "{\"compare\":[%s],\"success\":[{\"request_range\":{\"key\":\"%s\"}},{\"request_range\":{\"key\":\"%s\"}}]}",
             ours(log, compares), s, t);
    if (!is_posted(&log->to, "kv/txn", log->body) || !is_done(&log->to)) return MZ_LOG_FAILED;
    *session = response_hex(&log->to, 0, 0);
    log->first = response_hex(&log->to, 1, 0);
    log->next = response_hex(&log->to, 1, 1);
    *revision = etcd_number(etcd_whole(&log->to), "revision");
    int is_whole = *session && etcd_field(etcd_response(etcd_whole(&log->to), 1), "value");
    return is_whole && log->first <= log->next ? MZ_OK : MZ_DAMAGED;
}

typedef struct { uint8_t *bytes; size_t count, room; } gathered;

/* The bytes of the value that begins here, in base64, after the others. */
static mz_code gather(gathered *g, const char *value) {
    size_t length = strcspn(value, "\"") / 4 * 3 + EPOCH;
    if (g->count + length > g->room) {
        size_t room = 2 * (g->count + length);
        uint8_t *bytes = (uint8_t *)realloc(g->bytes, room);
        if (!bytes) return MZ_MEMORY;
        g->bytes = bytes;
        g->room = room;
    }
    uint8_t *here = g->bytes + g->count;
    size_t count = etcd_decoded(value, here, length);
    if (count < EPOCH) return MZ_DAMAGED;
    memmove(here, here + EPOCH, count - EPOCH);
    g->count += count - EPOCH;
    return MZ_OK;
}

/* The chunks of a response, in the order of their numbers; the first of them has this one. */
static mz_code gather_page(etcd_log *log, gathered *g, uint64_t *number) {
    mz_code c = MZ_OK;
    char wanted[ETCD_TEXT];
    for (const char *at = log->to.in; c == MZ_OK && (at = strstr(at, "\"key\":\"")); (*number)++) {
        at += strlen("\"key\":\"");
        const char *expected = chunk_key(log, wanted, *number), *value = strstr(at, "\"value\":\"");
        if (*number >= log->next || strncmp(at, expected, strlen(expected)) || !value) return MZ_DAMAGED;
        at = value + strlen("\"value\":\"");
        c = gather(g, at);
        at += strcspn(at, "\"");
    }
    return c;
}

/* All of them, as they were at this revision. A page is asked for by its keys, which etcd answers in their order: for a limit it would
 * go through all that are left. */
static mz_code gather_all(etcd_log *log, gathered *g, uint64_t revision) {
    char from[ETCD_TEXT], to[ETCD_TEXT];
    mz_code c = MZ_OK;
    for (uint64_t number = log->first; c == MZ_OK && number < log->next;) {
        uint64_t until = log->next - number < PAGE ? log->next : number + PAGE;
        snprintf(log->body, BODY, "{\"key\":\"%s\",\"range_end\":\"%s\",\"revision\":\"%llu\"}",
                 chunk_key(log, from, number), chunk_key(log, to, until), (unsigned long long)revision);
        if (!is_posted(&log->to, "kv/range", log->body)) return MZ_LOG_FAILED;
        c = gather_page(log, g, &number);
        if (c == MZ_OK && number != until) c = MZ_DAMAGED;
    }
    return c;
}

mz_code etcd_log_read(void *context, uint8_t **bytes, size_t *count, uint64_t *session) {
    etcd_log *log = (etcd_log *)context;
    gathered g = {NULL, 0, 0};
    uint64_t revision = 0;
    mz_code c = read_head(log, session, &revision);
    if (c == MZ_OK) c = gather_all(log, &g, revision);
    *bytes = g.bytes;
    *count = g.count;
    return c;
}

/* ---- its life */

void etcd_log_close(void *context) {
    etcd_log *log = (etcd_log *)context;
    if (!log) return;
    etcd_let_go(&log->to);
    etcd_let_go(&log->beating);
    free(log->members);
    free(log->body);
    free(log->chunk);
    free(log);
}

static int is_name(const char *name) {
    size_t length = strlen(name);
    for (const char *at = name; *at; at++)
        if (!isalnum((unsigned char)*at)) return 0;
    return length > 0 && length <= NAME;
}

etcd_log *etcd_log_open(const char *members, const char *name, unsigned silence) {
    etcd_log *log = is_name(name) ? (etcd_log *)calloc(1, sizeof *log) : NULL;
    if (!log) return NULL;
    log->members = strdup(members);
    log->body = (char *)malloc(BODY);
    log->chunk = (uint8_t *)malloc(EPOCH + CHUNK + 1);
    log->silence = silence;
    snprintf(log->name, sizeof log->name, "%s", name);
    log->to = (etcd_connection){.members = log->members, .fd = -1};
    log->beating = log->to;
    if (log->members && log->body && log->chunk) return log;
    etcd_log_close(log);
    return NULL;
}
