#include "alone.h"
#include <sqlite3.h>
#include <stdio.h>
#include <stdlib.h>

typedef struct { sqlite3 *db; sqlite3_stmt *begin, *move, *commit; } connection;

static void disconnect(void *context) {
    connection *c = (connection *)context;
    sqlite3_finalize(c->begin);
    sqlite3_finalize(c->move);
    sqlite3_finalize(c->commit);
    sqlite3_close(c->db);
    free(c);
}

static sqlite3 *opened(const char *folder, int synced) {
    char path[400];
    sqlite3 *db;
    snprintf(path, sizeof path, "%s/alone.db", folder);
    if (sqlite3_open(path, &db) != SQLITE_OK) return NULL;
    sqlite3_busy_timeout(db, 60000);
    sqlite3_exec(db, "pragma journal_mode = wal", NULL, NULL, NULL);
    sqlite3_exec(db, synced ? "pragma synchronous = full" : "pragma synchronous = normal", NULL, NULL, NULL);
    return db;
}

static int begin(const char *folder, int synced) {
    sqlite3 *db = opened(folder, synced);
    int ok = db && sqlite3_exec(db,
        "drop table if exists account; create table account (key integer primary key, balance integer not null);"
        "with recursive n(i) as (select 0 union all select i + 1 from n where i < " ALONE_TEXT(ACCOUNTS) " - 1)"
        "insert into account select i, 1000000 from n",
        NULL, NULL, NULL) == SQLITE_OK;
    sqlite3_close(db);
    return ok;
}

static void *connected(const char *folder, int synced) {
    connection *c = (connection *)calloc(1, sizeof *c);
    if (!c) return NULL;
    c->db = opened(folder, synced);
    if (c->db && sqlite3_prepare_v2(c->db, "begin immediate", -1, &c->begin, NULL) == SQLITE_OK &&
        sqlite3_prepare_v2(c->db, "update account set balance = balance + ?2 where key = ?1", -1, &c->move, NULL) == SQLITE_OK &&
        sqlite3_prepare_v2(c->db, "commit", -1, &c->commit, NULL) == SQLITE_OK)
        return c;
    disconnect(c);
    return NULL;
}

static int is_done(sqlite3_stmt *s) {
    int rc = sqlite3_step(s);
    return sqlite3_reset(s) == SQLITE_OK && rc == SQLITE_DONE;
}

static int is_moved(connection *c, uint64_t account, int amount) {
    sqlite3_bind_int64(c->move, 1, (sqlite3_int64)account);
    sqlite3_bind_int(c->move, 2, amount);
    return is_done(c->move);
}

static int transfer(void *context, uint64_t source, uint64_t target) {
    connection *c = (connection *)context;
    return is_done(c->begin) && is_moved(c, source, -1) && is_moved(c, target, 1) && is_done(c->commit);
}

const alone_way alone_ways[] = {{"SQLite", begin, connected, transfer, disconnect}, {NULL, NULL, NULL, NULL, NULL}};
