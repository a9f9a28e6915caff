/* What an operator watches: each count, step by step, behind a way back as before it, and as Prometheus' text. */
#define _GNU_SOURCE
#include "mazzulpe_object.h"
#include "example/prometheus.h"
#include "seen.h"

enum { DCS = 2, TRIES = 3 };

typedef struct { mz_tc *tc; mz_dc *dcs[DCS]; int loses; } bank;

static mz_carried carry(void *context, const mz_wire *wire, mz_reply *reply, mz_news *news) {
    bank *b = (bank *)context;
    (void)news;
    if (b->loses > 0 && b->loses--) return MZ_LOST;
    return mz_dc_perform(b->dcs[wire->record.dc], wire, reply) == MZ_OK ? MZ_REPLIED : MZ_LOST;
}

static mz_tc *started(void) {
    mz_code c;
    mz_tc *tc = mz_tc_new(DCS, &c);
    if (!tc || mz_load_object_file(tc, "build/bank.o", NULL, NULL) != MZ_OK) exit(2);
    return tc;
}

static mz_next called(bank *b, const char *name, const uint64_t *args, size_t count) {
    uint64_t procedure = 0, txn = 0;
    mz_receipt receipt;
    mz_next stopped = MZ_RUNNING;
    SEEN(mz_find(b->tc, name, &procedure) == MZ_OK && mz_admit(b->tc, procedure, args, count, &txn, NULL, NULL) == MZ_OK);
    SEEN(mz_run(b->tc, txn, carry, b, TRIES, &receipt, &stopped) == MZ_OK);
    return stopped;
}

static int is_counted(mz_tc *tc, mz_counts wanted) {
    mz_counts n;
    return mz_count(tc, &n) == MZ_OK && !memcmp(&n, &wanted, sizeof n);
}

/* A number of the text, or -1. */
static long long in_text(const char *text, const char *name) {
    char line[100];
    snprintf(line, sizeof line, "\nmazzulpe_%s ", name);
    const char *at = strstr(text, line);
    return at ? atoll(at + strlen(line)) : -1;
}

static void in_prometheus(bank *b) {
    char text[8192] = "";
    mz_counts n;
    SEEN(mz_count(b->tc, &n) == MZ_OK);
    FILE *to = fmemopen(text, sizeof text, "w");
    SEEN(to && prometheus_counts(to, b->tc, NULL) == MZ_OK);
    prometheus_components(to, b->tc, DCS);
    fclose(to);
    SEEN(in_text(text, "admitted_total") == 4 && in_text(text, "committed_total") == 2 && in_text(text, "aborted_total") == 1);
    SEEN(in_text(text, "wires_total") == (long long)n.wires && in_text(text, "waiting") == 1 && in_text(text, "log_bytes") == -1);
    SEEN(strstr(text, "\nmazzulpe_down{component=\"0\"} 1\n") && strstr(text, "\nmazzulpe_redone_number{component=\"0\"} 2\n"));
}

static void counted(bank *b) {
    const uint64_t here[] = {1, 10}, other[] = {2, 10};
    const mz_note notes[DCS] = {{1, 0, 1}, {0, 0, 0}};
    static uint8_t rows[100][MZ_EVENT_BYTES];
    uint64_t txn, procedure, mark = 9, redone = 9;
    mz_news news;
    mz_wire wire;
    mz_reply reply;
    int up = 0;
    memset(&wire, 0, sizeof wire);
    memset(&reply, 0, sizeof reply);
    SEEN(is_counted(b->tc, (mz_counts){0}) && mz_count(b->tc, NULL) == MZ_BAD_ARGUMENT && mz_redo_at(b->tc, 0, NULL, NULL) == MZ_NOT_DOWN);
    SEEN(called(b, "deposit_here", here, 2) == MZ_OVER && called(b, "deposit_there", here, 2) == MZ_OVER);
    SEEN(is_counted(b->tc, (mz_counts){.admitted = 2, .committed = 2, .wires = 4, .last_number = 4, .low_water = 4, .events = 12}));
    SEEN(called(b, "touch", here, 1) == MZ_OVER);
    b->loses = 2 * TRIES;
    SEEN(called(b, "deposit_here", other, 2) == MZ_WAITS);
    SEEN(mz_find(b->tc, "deposit_here", &procedure) == MZ_OK && mz_admit(b->tc, procedure, other, 2, &txn, NULL, NULL) == MZ_BUSY);
    mz_counts n = {.admitted = 4, .busy = 1, .committed = 2, .aborted = 1, .open = 1, .waiting = 1, .wires = 8, .resent = 3,
                   .last_number = 8, .low_water = 7, .events = 22};
    SEEN(is_counted(b->tc, n));
    SEEN(mz_dc_restart(b->dcs[0], &news) == MZ_OK && mz_told(b->tc, 0, &news) == MZ_OK);
    SEEN(mz_redo_at(b->tc, 0, &mark, &redone) == MZ_OK && mark == 0 && redone == 0);
    SEEN(mz_redo_next(b->tc, 0, &wire, &up) == MZ_OK && mz_dc_perform(b->dcs[0], &wire, &reply) == MZ_OK);
    reply.number++;
    SEEN(mz_redone(b->tc, 0, &reply) == MZ_STRANGER);
    reply.number--;
    SEEN(mz_redone(b->tc, 0, &reply) == MZ_OK && mz_redo_at(b->tc, 0, &mark, &redone) == MZ_OK && mark == 0 && redone == 2);
    n.redone = n.restarts = n.refused = 1;
    SEEN(is_counted(b->tc, n));
    for (uint64_t i = 0; i < n.events; i++) SEEN(mz_log_bytes(b->tc, i, rows[i]) == MZ_OK);
    mz_tc *tc = started();
    SEEN(mz_recover(tc, rows, (size_t)n.events, notes, DCS, NULL) == MZ_OK);
    SEEN(is_counted(tc, (mz_counts){.open = 1, .waiting = 1, .last_number = 8, .low_water = 7, .events = 22}));
    mz_tc_free(tc);
    in_prometheus(b);
}

/* News that no component has; and what mz_log_over refuses. */
static int nothing(void *context, const void *bytes, size_t count) {
    (void)context, (void)bytes, (void)count;
    return 0;
}

static int synced(void *context) {
    (void)context;
    return 0;
}

static void refused(bank *b) {
    const uint64_t most = (uint64_t)1 << 62;
    const mz_news news[] = {{most + 1, 0}, {9, most + 1}, {UINT64_MAX, UINT64_MAX}};
    mz_device device = {NULL, nothing, synced, nothing, NULL};
    mz_log_found found = {7, 7, 7};
    mz_log *log = NULL;
    int down = 7;
    for (int i = 0; i < 3; i++) SEEN(mz_told(b->tc, 1, &news[i]) == MZ_BAD_ARGUMENT);
    SEEN(mz_site(b->tc, 1, NULL, &down) == MZ_OK && !down);
    SEEN(!mz_log_over(NULL, &device) && !mz_log_over(b->tc, NULL));
    device.append = NULL;
    SEEN(!mz_log_over(b->tc, &device));
    device.append = nothing, device.sync = NULL;
    SEEN(!mz_log_over(b->tc, &device));
    device.sync = synced, device.replace = NULL;
    SEEN(!mz_log_over(b->tc, &device));
    SEEN(mz_log_open(b->tc, "/no/such/folder/log", &log, &found) == MZ_LOG_FAILED && !found.events && !found.dropped && !found.place);
    found.place = 7;
    SEEN(mz_log_open(b->tc, NULL, &log, &found) == MZ_BAD_ARGUMENT && !found.place && mz_log_count(NULL, NULL) == MZ_BAD_ARGUMENT);
}

static void of_a_log(void) {
    mz_device device = {NULL, nothing, synced, nothing, NULL};
    mz_log_counts l;
    bank b = {started(), {NULL, NULL}, 0};
    uint64_t procedure = 0, txn = 0;
    const uint64_t args[] = {1, 10};
    mz_log *log = mz_log_over(b.tc, &device);
    SEEN(log && mz_log_keep(log) == MZ_OK && mz_log_count(log, &l) == MZ_OK && l.length == l.written && l.written > 0);
    const uint64_t begun = l.written;
    SEEN(l.synced == l.written && l.syncs == 1 && l.appends == 0);
    SEEN(mz_find(b.tc, "deposit_here", &procedure) == MZ_OK && mz_admit(b.tc, procedure, args, 2, &txn, NULL, NULL) == MZ_OK);
    SEEN(mz_log_write(log, &txn) == MZ_OK && mz_log_count(log, &l) == MZ_OK && l.written > begun && l.synced == begun && l.appends == 0);
    SEEN(mz_log_sync(log, txn) == MZ_OK && mz_log_count(log, &l) == MZ_OK && l.synced == txn && l.appends == 1 && l.syncs == 2);
    mz_log_close(log);
    mz_tc_free(b.tc);
}

int main(void) {
    mz_code c;
    bank b = {started(), {mz_dc_new(100, 1000, &c), mz_dc_new(100, 1000, &c)}, 0};
    counted(&b);
    refused(&b);
    of_a_log();
    mz_tc_free(b.tc);
    for (int d = 0; d < DCS; d++) mz_dc_free(b.dcs[d]);
    printf("counts: %s\n", failures ? "NOT as they have to be" : "each as it was, and as Prometheus' text");
    return failures != 0;
}
