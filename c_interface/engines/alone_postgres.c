#include "alone.h"
#include <libpq-fe.h>
#include <stdio.h>
#include <string.h>

static const char tables[] =
    "drop table if exists account; create table account (key int8 primary key, balance int8 not null) with (fillfactor = 70);"
    "insert into account select i - 1, 1000000 from generate_series(1, " ALONE_TEXT(ACCOUNTS) ") i;"
    "create or replace function move(source int8, target int8) returns void language plpgsql as $$ declare had int8; begin"
    "  select balance into had from account where key = source for update;"
    "  perform 1 from account where key = target for update;"
    "  if had < 1 then return; end if;"
    "  update account set balance = balance - 1 where key = source; update account set balance = balance + 1 where key = target; end $$";

static int is_executed(PGconn *c, const char *sql) {
    PGresult *r = PQexec(c, sql);
    int ok = PQresultStatus(r) == PGRES_COMMAND_OK || PQresultStatus(r) == PGRES_TUPLES_OK;
    if (!ok) fprintf(stderr, "%s", PQerrorMessage(c));
    PQclear(r);
    return ok;
}

static void *connected(const char *folder, int synced) {
    char words[400];
    snprintf(words, sizeof words, "host=%s port=5432 user=postgres dbname=postgres", folder);
    PGconn *c = PQconnectdb(words);
    if (PQstatus(c) == CONNECTION_OK && is_executed(c, synced ? "set synchronous_commit = on" : "set synchronous_commit = off") &&
        is_executed(c, "set client_min_messages = warning"))
        return c;
    PQfinish(c);
    return NULL;
}

static void disconnect(void *c) { PQfinish((PGconn *)c); }

static int begin(const char *folder, int synced) {
    PGconn *c = (PGconn *)connected(folder, synced);
    int ok = c && is_executed(c, tables);
    PQfinish(c);
    return ok;
}

/* These with %1$llu as the source and %2$llu as the target. Accounts are locked by rising key, or two would wait for one another. */
static int are_done(void *c, const char *const *statements, uint64_t source, uint64_t target) {
    char sql[200];
    for (const char *const *s = statements; *s; s++) {
        snprintf(sql, sizeof sql, *s, (unsigned long long)source, (unsigned long long)target);
        if (!is_executed((PGconn *)c, sql)) return 0;
    }
    return 1;
}

static int by_function(void *c, uint64_t source, uint64_t target) {
    static const char *const statements[] = {"select move(%1$llu, %2$llu)", NULL};
    return are_done(c, statements, source < target ? source : target, source < target ? target : source);
}

static int by_statements(void *c, uint64_t source, uint64_t target) {
    static const char *const statements[] = {
        "begin", "select balance from account where key = %1$llu for update", "select balance from account where key = %2$llu for update",
        "update account set balance = balance - 1 where key = %1$llu", "update account set balance = balance + 1 where key = %2$llu",
        "commit", NULL};
    return are_done(c, statements, source < target ? source : target, source < target ? target : source);
}

const alone_way alone_ways[] = {{"PostgreSQL, one function", begin, connected, by_function, disconnect},
                                {"PostgreSQL, six statements", begin, connected, by_statements, disconnect},
                                {NULL, NULL, NULL, NULL, NULL}};
