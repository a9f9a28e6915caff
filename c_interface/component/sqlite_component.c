/* The data component of example/sqlite_dc.c, as `make try_component` wants it. */
#include "component.h"
#include "../example/sqlite_dc.h"
#include <pthread.h>
#include <stdio.h>

struct component {
    pthread_mutex_t lock; /* a connection serves one thread at a time */
    sqlite_dc *dc;
    uint64_t incarnation; /* as mz_site says it; a copy that is put back has an earlier one */
    int has_copy, is_full;
    char path[256], copy[256];
};

/* The file, as full as it is. */
static int opened(component *c) {
    c->dc = sqlite_dc_open(c->path, 0, SQLITE_DC_LATER);
    if (c->dc && c->is_full) sqlite_dc_limit(c->dc, sqlite_dc_pages(c->dc));
    return c->dc != NULL;
}

component *component_open(const char *folder) {
    component *c = (component *)calloc(1, sizeof *c);
    if (!c) return NULL;
    pthread_mutex_init(&c->lock, NULL);
    snprintf(c->path, sizeof c->path, "%s/records.db", folder);
    snprintf(c->copy, sizeof c->copy, "%s/copy.db", folder);
    return opened(c) ? c : NULL;
}

/* A copy from before it isn't put back any more: it would be another session's. */
int component_begin(component *c, uint64_t session, uint64_t former) {
    return sqlite_dc_begin(c->dc, session, former) && component_checkpoint(c);
}

void component_close(component *c) {
    sqlite_dc_close(c->dc);
    remove(c->path);
    remove(c->copy);
    free(c);
}

mz_carried component_carry(component *c, const mz_wire *wire, mz_reply *reply, mz_news *news) {
    pthread_mutex_lock(&c->lock);
    mz_carried carried = sqlite_dc_perform(c->dc, wire, reply, news);
    pthread_mutex_unlock(&c->lock);
    return carried;
}

mz_carried component_carry_many(component *c, const mz_wire *wires, size_t count, mz_reply *replies, mz_news *news) {
    pthread_mutex_lock(&c->lock);
    mz_carried carried = sqlite_dc_perform_many(c->dc, wires, count, replies, news);
    pthread_mutex_unlock(&c->lock);
    return carried;
}

int component_checkpoint(component *c) { return c->has_copy = sqlite_dc_copy(c->dc, c->copy); }

static int put_back(component *c) {
    char beside[300];
    mz_news news;
    for (int i = 0; i < 3; i++) {
        snprintf(beside, sizeof beside, "%s%s", c->path, i == 0 ? "" : i == 1 ? "-wal" : "-shm");
        remove(beside);
    }
    if (c->has_copy && rename(c->copy, c->path)) return 0;
    return opened(c) && sqlite_dc_put_back(c->dc, ++c->incarnation, &news) && component_checkpoint(c);
}

int component_kill(component *c, int loses) {
    sqlite_dc_close(c->dc);
    return loses ? put_back(c) : opened(c);
}

/* It has no further page. */
void component_fill(component *c, int full) {
    c->is_full = full;
    sqlite_dc_limit(c->dc, full ? sqlite_dc_pages(c->dc) : 0);
}
