/* Two PostgreSQL servers with asynchronous commit, so that a kill loses, and redo restores. PG_BIN is the folder of
 * postgres and initdb. */
#include "storage.h"
#include "postgres_dc.h"
#include "postgres_server.h"

enum { ANSWERS_WITHIN = 30000 };

const unsigned servers_live = 1500000;
int servers_synced;

static struct { char folder[300], output[320]; pid_t pid; } servers[DCS];
static postgres_dc *components[DCS];
mz_batched storage_components[DCS];
static const struct passwd *owner; /* who runs the servers: PostgreSQL refuses root */

/* What is made wrong, by SQL alone. */
static const struct { const char *name, *sql; } controls[] = {
    {"forgetful",
     "create function mz.forgets() returns trigger language plpgsql as $$ begin return null; end $$;"
     "create trigger forget before insert on mz.performed for each row execute function mz.forgets();"
     "create trigger forget before insert on mz.kept for each row execute function mz.forgets()"},
    {"untold",
     "create or replace function mz.begin_incarnation(known int8) returns void language sql as"
     " $$ insert into mz.alive select incarnation from mz.component $$"},
    {"raised",
     "create or replace function mz.raise_mark(w_session int8, w_incarnation int8, w_mark int8) returns bool language plpgsql as $$ begin"
     "  update mz.component set mark = greatest(mark, w_mark);"
     "  perform mz.forget(w_mark); return true; end $$"},
    {"at_start",
     "create table mz.started as select pg_postmaster_start_time() as at;"
     "create or replace function mz.begin_incarnation(known int8) returns void language plpgsql as $$ begin"
     "  perform pg_advisory_xact_lock(28027, 0); perform set_config('synchronous_commit', 'on', true);"
     "  if (select at from mz.started) <> pg_postmaster_start_time() then"
     "    update mz.component set incarnation = greatest(incarnation, known) + 1; end if;"
     "  update mz.started set at = pg_postmaster_start_time(); delete from mz.alive;"
     "  insert into mz.alive select incarnation from mz.component; end $$"},
};

int storage_open(const char *folder, uint64_t session) {
    char words[400];
    for (int d = 0; d < DCS; d++) {
        snprintf(words, sizeof words, "host=%s port=%d user=postgres dbname=postgres", folder, 5432 + d);
        components[d] = postgres_dc_open(words, session, POSTGRES_DC_LATER);
        if (!components[d]) return 0;
        storage_components[d] = postgres_dc_batched(components[d]);
    }
    return 1;
}

int storage_begin(uint16_t dc, uint64_t session, uint64_t former) { return postgres_dc_begin(components[dc], session, former); }

/* A disk without room: as long as the reserve isn't given back, and for the reserve itself. */
void storage_fill(uint16_t dc, int full) {
    (void)postgres_dc_execute(components[dc],
        "begin; set local synchronous_commit = on; set local client_min_messages = warning;"
        "create table if not exists mz.full (is_so bool);"
        "create or replace function mz.no_room() returns trigger language plpgsql as $$ begin"
        "  if exists (select 1 from mz.full) and (tg_table_name = 'reserve' or pg_relation_size('mz.reserve') > 0) then"
        "    raise exception 'no room' using errcode = '53100'; end if;"
        "  return new; end $$;"
        "create or replace trigger no_room before insert on mz.performed for each row execute function mz.no_room();"
        "create or replace trigger no_room before insert on mz.kept for each row execute function mz.no_room();"
        "create or replace trigger no_room before insert on mz.reserve for each row execute function mz.no_room();"
        "delete from mz.full; commit");
    if (full) (void)postgres_dc_execute(components[dc], "insert into mz.full values (true) returning set_config('synchronous_commit', 'on', true)");
}

int storage_keep(uint16_t dc, uint64_t incarnation, uint64_t mark) {
    return postgres_dc_keep(components[dc], incarnation, mark);
}

/* ---- the servers */

static void start(int i) {
    char name[300], port[16], sockets[320];
    snprintf(port, sizeof port, "%d", 5432 + i);
    snprintf(sockets, sizeof sockets, "%s", servers[i].folder);
    *strrchr(sockets, '/') = 0;
    await_its_processes(servers[i].folder);
    const char *words[] = {postgres_program(name, sizeof name, "postgres"), "-D", servers[i].folder, "-k", sockets, "-p", port,
                           "-c", "listen_addresses=", "-c", servers_synced ? "fsync=on" : "fsync=off", "-c", "shared_buffers=16MB", "-c", "max_connections=100",
                           "-c", "log_min_messages=fatal", "-c", "log_min_error_statement=panic", NULL};
    servers[i].pid = process_begin(words, servers[i].output, owner);
}

static int is_made(const char *folder, int i) {
    char name[300];
    snprintf(servers[i].folder, sizeof servers[i].folder, "%s/%d", folder, i);
    snprintf(servers[i].output, sizeof servers[i].output, "%s/%d.said", folder, i);
    const char *made[] = {postgres_program(name, sizeof name, "initdb"), "-D", servers[i].folder, "-A", "trust", "-U", "postgres",
                          "--no-sync", "--no-instructions", NULL};
    const char *copied[] = {"cp", "-a", servers[0].folder, servers[i].folder, NULL};
    return process_runs(i ? copied : made, servers[i].output, i ? NULL : owner);
}

static int is_wrong_as(const char *control) {
    for (size_t k = 0; k < sizeof controls / sizeof *controls; k++)
        if (!strcmp(controls[k].name, control))
            return postgres_dc_execute(components[0], controls[k].sql) && postgres_dc_execute(components[1], controls[k].sql);
    fprintf(stderr, "PostgreSQL has no control %s\n", control);
    return 0;
}

int servers_begin(const char *folder, const char *control) {
    owner = geteuid() ? NULL : getpwnam("postgres");
    if (!geteuid() && (!owner || chown(folder, owner->pw_uid, owner->pw_gid))) return 0;
    for (int i = 0; i < DCS; i++)
        if (!is_made(folder, i)) {
            fprintf(stderr, "no server: %s\n", servers[i].output);
            return 0;
        }
    servers_start();
    if (!storage_open(folder, 0)) return 0;
    for (int i = 0; i < DCS; i++)
        for (int waited = 0; !postgres_dc_execute(components[i], "select 1"); waited += 20) {
            if (waited > ANSWERS_WITHIN) return 0;
            usleep(20000);
        }
    int is_right = !control || is_wrong_as(control);
    for (int i = 0; i < DCS; i++) postgres_dc_close(components[i]);
    return is_right;
}

/* A process of the server that serves somebody, or 0. */
static pid_t serving(int i) {
    char path[80], title[32] = "";
    pid_t found = 0, child;
    snprintf(path, sizeof path, "/proc/%d/task/%d/children", (int)servers[i].pid, (int)servers[i].pid);
    FILE *children = fopen(path, "r");
    while (children && !found && fscanf(children, "%d", &child) == 1) {
        snprintf(path, sizeof path, "/proc/%d/cmdline", (int)child);
        FILE *f = fopen(path, "r");
        if (f && fgets(title, sizeof title, f) && !strncmp(title, "postgres: postgres ", 19)) found = child;
        if (f) fclose(f);
    }
    if (children) fclose(children);
    return found;
}

/* The server, which loses its last commits; or, each third time, a process of it alone: then it recovers, and loses as well. */
unsigned servers_kill(uint16_t dc, unsigned drawn) {
    pid_t one = drawn % 3 ? 0 : serving(dc);
    return one ? kill(one, SIGKILL) == 0 : servers_lose(dc);
}

unsigned servers_lose(uint16_t dc) {
    process_kill(servers[dc].pid);
    start(dc);
    return 1;
}

void servers_end(void) {
    for (int i = 0; i < DCS; i++) process_kill(servers[i].pid);
}

void servers_start(void) {
    for (int i = 0; i < DCS; i++) start(i);
}
