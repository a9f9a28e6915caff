/* What mz_count and mz_log_count say, as Prometheus' text. Its lines are in a file's place at once, for whoever collects them. */
#ifndef PROMETHEUS_H
#define PROMETHEUS_H

#include "mazzulpe_log.h"

typedef struct { const char *name, *kind, *help; uint64_t value; } prometheus_line;

static inline void prometheus_print(FILE *to, const prometheus_line *lines, size_t count) {
    for (const prometheus_line *l = lines; l < lines + count; l++)
        fprintf(to, "# HELP mazzulpe_%s %s\n# TYPE mazzulpe_%s %s\nmazzulpe_%s %llu\n", l->name, l->help, l->name, l->kind, l->name,
                (unsigned long long)l->value);
}

#define PROMETHEUS_LINES(lines) lines, sizeof(lines) / sizeof *(lines)

/* Under the lock of the transaction component. log may be NULL. */
static inline mz_code prometheus_counts(FILE *to, mz_tc *tc, mz_log *log) {
    mz_counts n;
    mz_log_counts l = {0, 0, 0, 0, 0};
    mz_code c = mz_count(tc, &n);
    if (c == MZ_OK && log) c = mz_log_count(log, &l);
    if (c != MZ_OK) return c;
    const prometheus_line of_calls[] = {
        {"admitted_total", "counter", "Transactions that were admitted.", n.admitted},
        {"busy_total", "counter", "Calls that another's lock kept out.", n.busy},
        {"committed_total", "counter", "Transactions that committed.", n.committed},
        {"aborted_total", "counter", "Transactions that aborted.", n.aborted},
        {"no_room_total", "counter", "Transactions that a full component ended.", n.no_room},
        {"open", "gauge", "Transactions that are open.", n.open},
        {"waiting", "gauge", "Open transactions that wait for an answer.", n.waiting},
        {"wires_total", "counter", "Requests to components.", n.wires},
        {"resent_total", "counter", "Wires made again.", n.resent},
        {"redone_total", "counter", "Operations redone.", n.redone},
        {"restarts_total", "counter", "Restarts of components that were told.", n.restarts},
        {"refused_replies_total", "counter", "Replies that were refused.", n.refused},
        {"last_number", "gauge", "The last number that was given out.", n.last_number},
        {"low_water", "gauge", "Each number up to it is answered.", n.low_water},
        {"log_events", "gauge", "Events of the log in memory.", n.events},
    };
    const prometheus_line of_log[] = {
        {"log_written_bytes_total", "counter", "Bytes written to the log.", l.written},
        {"log_synced_bytes_total", "counter", "Of those, bytes that stay.", l.synced},
        {"log_appends_total", "counter", "Writes of the log's device.", l.appends},
        {"log_syncs_total", "counter", "Syncs of the log's device.", l.syncs},
        {"log_bytes", "gauge", "The length of the log's file.", l.length},
    };
    prometheus_print(to, PROMETHEUS_LINES(of_calls));
    if (log) prometheus_print(to, PROMETHEUS_LINES(of_log));
    return MZ_OK;
}

/* The same of each component: whether it is down, and how far its redo has got. */
static inline void prometheus_components(FILE *to, mz_tc *tc, uint16_t dcs) {
    fprintf(to, "# HELP mazzulpe_down Whether a component is down.\n# TYPE mazzulpe_down gauge\n");
    for (uint16_t d = 0; d < dcs; d++) {
        int down = 0;
        mz_site(tc, d, NULL, &down);
        fprintf(to, "mazzulpe_down{component=\"%u\"} %d\n", d, down);
    }
    fprintf(to, "# HELP mazzulpe_redone_number The number that was redone last.\n# TYPE mazzulpe_redone_number gauge\n");
    for (uint16_t d = 0; d < dcs; d++) {
        uint64_t redone = 0;
        if (mz_redo_at(tc, d, NULL, &redone) == MZ_OK) fprintf(to, "mazzulpe_redone_number{component=\"%u\"} %llu\n", d, (unsigned long long)redone);
    }
}

/* Into a file, which is replaced. 0 where that fails. */
static inline int prometheus_write(const char *path, mz_tc *tc, mz_log *log, uint16_t dcs) {
    char beside[600];
    snprintf(beside, sizeof beside, "%s.new", path);
    FILE *file = fopen(beside, "w");
    if (!file) return 0;
    int written = prometheus_counts(file, tc, log) == MZ_OK;
    prometheus_components(file, tc, dcs);
    written &= !ferror(file);
    return !fclose(file) && written && !rename(beside, path);
}

#endif
