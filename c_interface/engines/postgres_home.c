/* A log's home of a PostgreSQL server with two standbys, one of which has each commit before it is answered. */
#include "home.h"
#include "postgres_log.h"
#include "postgres_server.h"
#include <libpq-fe.h>
#include <string.h>

enum { FIRST_PORT = 5440, ANSWERS_WITHIN = 60000, AT_REST = 300 };

static struct { char folder[320], output[340]; pid_t pid; } members[HOMES];
static char at_folder[320], words[1100];
static int primary, is_cut_off, is_small;
static const struct passwd *owner; /* who runs the servers: PostgreSQL refuses root */

/* ---- the way to it */

void *home_open(unsigned silence) { return postgres_log_open(words, "bank", silence); }
int home_await(void *home) { return postgres_log_await((postgres_log *)home); }
int home_beat(void *home) { return postgres_log_beat((postgres_log *)home); }
mz_device home_device(void *home) { return postgres_log_device((postgres_log *)home); }
void home_close(void *home) { postgres_log_close(home); }

mz_code home_read(void *home, uint8_t **bytes, size_t *count, uint64_t *session) { return postgres_log_read(home, bytes, count, session); }

/* What this says, as a number; -1 where nobody says it. */
static long long answered_by(const char *whom, const char *sql) {
    PGconn *c = PQconnectdb(whom);
    PGresult *r = PQexec(c, sql);
    long long is = PQresultStatus(r) == PGRES_TUPLES_OK && PQntuples(r) == 1 ? atoll(PQgetvalue(r, 0, 0)) : -1;
    PQclear(r);
    PQfinish(c);
    return is;
}

static long long answered(const char *sql) { return answered_by(words, sql); }

int home_damage(home_damages what) {
    static const char *const ways[] = {
        [BYTE] = "with done as (update mz_log.chunk"
                 " set bytes = set_byte(bytes, length(bytes) - 20, get_byte(bytes, length(bytes) - 20) # 1)"
                 " where number = (select min(number) from mz_log.chunk) returning 1) select count(*) from done",
        [CHUNK_GONE] = "with done as (delete from mz_log.chunk where number = (select min(number) from mz_log.chunk)"
                       " returning 1) select count(*) from done",
        [END_GONE] = "with done as (delete from mz_log.home returning 1) select count(*) from done"};
    return ways[what] && answered(ways[what]) == 1; /* the epoch is where the end is */
}

/* ---- its members */

void home_kill(int member) { process_kill(members[member].pid); }

void home_start(int member) {
    char name[300], port[16], from[500];
    snprintf(port, sizeof port, "%d", FIRST_PORT + member);
    snprintf(from, sizeof from, "primary_conninfo=host=%s port=%d user=postgres application_name=s%d", at_folder,
             FIRST_PORT + primary, member);
    if (is_cut_off) snprintf(from, sizeof from, "primary_conninfo=");
    await_its_processes(members[member].folder);
    /* (a file of WAL has 2^24 bytes) */
    const char *started[] = {"prlimit", is_small ? "--fsize=17000000:" : "--fsize=unlimited:",
                             postgres_program(name, sizeof name, "postgres"), "-D", members[member].folder,
                             "-k", at_folder, "-p", port,
                             "-c", "listen_addresses=", "-c", "fsync=off", "-c", "shared_buffers=16MB", "-c", "max_connections=40",
                             "-c", "log_min_messages=fatal", "-c", "log_min_error_statement=panic", "-c", "wal_retrieve_retry_interval=100ms",
                             "-c", "synchronous_standby_names=ANY 1 (s0, s1, s2)", "-c", from, NULL};
    members[member].pid = process_begin(started, members[member].output, owner);
}

/* The first by initdb, the others as its copies. */
static int is_made(int member) {
    char name[300], from[400];
    if (member == 0) {
        const char *made[] = {postgres_program(name, sizeof name, "initdb"), "-D", members[0].folder, "-A", "trust", "-U", "postgres",
                              "--no-sync", "--no-instructions", NULL};
        return process_runs(made, members[0].output, owner);
    }
    snprintf(from, sizeof from, "host=%s port=%d user=postgres", at_folder, FIRST_PORT);
    const char *copied[] = {postgres_program(name, sizeof name, "pg_basebackup"), "-D", members[member].folder, "-d", from, "-R",
                            "-c", "fast", "--no-sync", NULL};
    return process_runs(copied, members[member].output, owner);
}

/* Until this says what is wanted. */
static int comes_to(const char *sql, long long wanted) {
    for (int waited = 0; waited < ANSWERS_WITHIN; waited += 20) {
        if (answered(sql) == wanted) return 1;
        usleep(20000);
    }
    return 0;
}

static const char has_standbys[] = "select count(*) from pg_stat_replication where sync_state = 'quorum'";

/* Of all members, or of those that may be promoted. */
static void say_where(int is_promoted) {
    static const char begins[] = "user=postgres dbname=postgres target_session_attrs=read-write";
    const char *at = at_folder;
    const int one = FIRST_PORT, two = FIRST_PORT + 1, three = FIRST_PORT + 2;
    if (is_promoted) snprintf(words, sizeof words, "%s host=%s,%s port=%d,%d", begins, at, at, two, three);
    else snprintf(words, sizeof words, "%s host=%s,%s,%s port=%d,%d,%d", begins, at, at, at, one, two, three);
}

int home_begin(const char *folder) {
    owner = geteuid() ? NULL : getpwnam("postgres");
    if (!geteuid() && (!owner || chown(folder, owner->pw_uid, owner->pw_gid))) return 0;
    snprintf(at_folder, sizeof at_folder, "%s", folder);
    say_where(0);
    for (int m = 0; m < HOMES; m++) {
        snprintf(members[m].folder, sizeof members[m].folder, "%s/p%d", folder, m);
        snprintf(members[m].output, sizeof members[m].output, "%s/p%d.said", folder, m);
        if (!is_made(m)) return 0;
        home_start(m);
        if (m == 0 && !comes_to("select 1", 1)) return 0;
    }
    return comes_to(has_standbys, HOMES - 1);
}

/* The limit is one of each file: of a large chunk's, that is the first to be met. */
const char *home_limit(int is_limited) {
    is_small = is_limited;
    home_kill(primary);
    home_start(primary);
    return comes_to(has_standbys, HOMES - 1) ? "could not extend file" : NULL;
}

/* How much WAL a member that is cut off has, once it has replayed what it has; -1 where it doesn't say. */
static long long wal_of(int member) {
    char whom[500];
    long long wal = -1;
    snprintf(whom, sizeof whom, "host=%s port=%d user=postgres dbname=postgres", at_folder, FIRST_PORT + member);
    for (int waited = 0; waited < ANSWERS_WITHIN; waited += AT_REST) {
        long long was = wal;
        wal = answered_by(whom, "select pg_last_wal_replay_lsn() - '0/0'");
        if (wal >= 0 && wal == was) return wal;
        usleep(AT_REST * 1000);
    }
    return -1;
}

/* Of two that each commit waited for one of, neither may be left with the former primary. */
int home_promote(void) {
    char whom[500];
    is_cut_off = 1;
    for (int m = 1; m < HOMES; m++) home_kill(m);
    for (int m = 1; m < HOMES; m++) home_start(m);
    primary = wal_of(1) >= wal_of(2) ? 1 : 2;
    snprintf(whom, sizeof whom, "host=%s port=%d user=postgres dbname=postgres", at_folder, FIRST_PORT + primary);
    if (answered_by(whom, "select pg_promote()::int4") != 1) return 0;
    is_cut_off = 0;
    say_where(1);
    home_kill(HOMES - primary);
    home_start(HOMES - primary);
    return comes_to(has_standbys, HOMES - 2);
}
