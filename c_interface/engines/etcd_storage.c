/* Two etcd clusters of three members each, on ports of the loopback. A member that is killed loses nothing; a cluster that is
 * restored from its last snapshot does. storage_keep takes one, through a member that has what was kept. */
#include "storage.h"
#include "etcd_dc.h"
#include "etcd_post.h"
#include "etcd_storage.h"
#include "processes.h"
#include <stdarg.h>

enum { MEMBERS = 3, FIRST_PORT = 21000, RUNS = 700, ANSWERS_WITHIN = 60000, TEXT = 1000 };

const unsigned servers_live = 1500000;
int servers_synced; /* they always are */

static pid_t pids[DCS][MEMBERS], forgetting;
static int first_port, restored[DCS], is_untold;
static char at_folder[TEXT];
static etcd_dc *components[DCS];
mz_batched storage_components[DCS];

static int port(int dc, int member, int is_peer) { return first_port + 2 * (dc * MEMBERS + member) + is_peer; }

static const char *text(char to[TEXT], const char *format, ...) {
    va_list words;
    va_start(words, format);
    vsnprintf(to, TEXT, format, words);
    va_end(words);
    return to;
}

/* ---- the way to them */

const char *etcd_members(int dc) {
    static char members[DCS][TEXT];
    return text(members[dc], "127.0.0.1:%d,127.0.0.1:%d,127.0.0.1:%d", port(dc, 0, 0), port(dc, 1, 0), port(dc, 2, 0));
}

int storage_open(const char *folder, uint64_t session) {
    (void)folder;
    for (int d = 0; d < DCS; d++) {
        components[d] = etcd_dc_open(etcd_members(d), session);
        if (!components[d]) return 0;
        storage_components[d] = etcd_dc_batched(components[d]);
    }
    return 1;
}

/* A quota that is spent, or none. */
void storage_fill(uint16_t dc, int full) { etcd_dc_quota(components[dc], (uint64_t)full); }

/* A member's snapshot has what it has heard of: a read that all agree on comes before it. */
static int is_saved(uint16_t dc, const char *beside) {
    char at[TEXT], output[TEXT];
    text(output, "%s/said", at_folder);
    for (int m = 0; m < MEMBERS; m++) {
        text(at, "http://127.0.0.1:%d", port(dc, m, 0));
        const char *read[] = {"etcdctl", "--endpoints", at, "get", "mark", NULL};
        const char *save[] = {"etcdctl", "--endpoints", at, "snapshot", "save", beside, NULL};
        if (process_runs(read, output, NULL) && process_runs(save, output, NULL)) return 1;
    }
    return 0;
}

/* A snapshot from before the session isn't put back any more. */
int storage_begin(uint16_t dc, uint64_t session, uint64_t former) {
    char to[TEXT], beside[TEXT];
    if (!etcd_dc_begin(components[dc], session, former)) return 0;
    text(to, "%s/%d.snapshot", at_folder, dc);
    text(beside, "%s/%d.snapshot.new", at_folder, dc);
    return access(to, R_OK) || (is_saved(dc, beside) && rename(beside, to) == 0);
}

/* A snapshot is good if the mark was heard by this incarnation before it was taken, and behind it the incarnation is the same
 * still: else it may be one of a cluster that has just been restored. It is in its place by then, for who restores next. */
int storage_keep(uint16_t dc, uint64_t incarnation, uint64_t mark) {
    char to[TEXT], beside[TEXT];
    text(to, "%s/%d.snapshot", at_folder, dc);
    text(beside, "%s/%d.snapshot.new", at_folder, dc);
    return etcd_dc_keep(components[dc], incarnation, mark) && is_saved(dc, beside) && rename(beside, to) == 0 &&
           etcd_dc_keep(components[dc], incarnation, mark);
}

/* ---- the servers */

static const char *all_of(char to[TEXT], int dc) {
    return text(to, "m0=http://127.0.0.1:%d,m1=http://127.0.0.1:%d,m2=http://127.0.0.1:%d", port(dc, 0, 1), port(dc, 1, 1), port(dc, 2, 1));
}

/* What tells two clusters of the same members apart: another for each restore. */
static const char *token(char to[TEXT], int dc) { return text(to, "cluster-%d-%d", dc, is_untold ? 0 : restored[dc]); }

static void start(int dc, int m) {
    char name[TEXT], data[TEXT], peer[TEXT], at[TEXT], all[TEXT], apart[TEXT], output[TEXT];
    text(peer, "http://127.0.0.1:%d", port(dc, m, 1));
    text(at, "http://127.0.0.1:%d", port(dc, m, 0));
    const char *words[] = {"etcd", "--name", text(name, "m%d", m), "--data-dir", text(data, "%s/%d%d", at_folder, dc, m),
                           "--listen-client-urls", at, "--advertise-client-urls", at, "--listen-peer-urls", peer,
                           "--initial-advertise-peer-urls", peer, "--initial-cluster", all_of(all, dc),
                           "--initial-cluster-token", token(apart, dc), "--logger", "zap", "--log-level", "fatal",
                           "--heartbeat-interval", "100", "--election-timeout", "1000", NULL};
    pids[dc][m] = process_begin(words, text(output, "%s/said", at_folder), NULL);
}

static int is_restored(int dc, int m, const char *snapshot) {
    char name[TEXT], data[TEXT], peer[TEXT], all[TEXT], apart[TEXT], output[TEXT];
    text(data, "%s/%d%d", at_folder, dc, m);
    text(output, "%s/said", at_folder);
    const char *remove[] = {"rm", "-rf", data, NULL};
    const char *restore[] = {"etcdctl", "snapshot", "restore", snapshot, "--name", text(name, "m%d", m), "--data-dir", data,
                             "--initial-cluster", all_of(all, dc), "--initial-cluster-token", token(apart, dc),
                             "--initial-advertise-peer-urls", text(peer, "http://127.0.0.1:%d", port(dc, m, 1)), NULL};
    return process_runs(remove, output, NULL) && process_runs(restore, output, NULL);
}

unsigned servers_kill(uint16_t dc, unsigned drawn) {
    process_kill(pids[dc][drawn % MEMBERS]);
    start(dc, (int)(drawn % MEMBERS));
    return 1;
}

/* Where no snapshot was taken yet nothing is lost. */
unsigned servers_lose(uint16_t dc) {
    char snapshot[TEXT];
    text(snapshot, "%s/%d.snapshot", at_folder, dc);
    for (int m = 0; m < MEMBERS; m++) process_kill(pids[dc][m]);
    int is_there = access(snapshot, R_OK) == 0;
    restored[dc] += is_there;
    for (int m = 0; m < MEMBERS; m++) {
        if (is_there && !is_restored(dc, m, snapshot)) fprintf(stderr, "a snapshot can't be restored: %s/said\n", at_folder);
        start(dc, m);
    }
    return MEMBERS;
}

/* A control: what was performed is forgotten again and again. */
static void forget_for_ever(void) {
    static etcd_connection to[DCS];
    prctl(PR_SET_PDEATHSIG, SIGKILL);
    for (int d = 0; d < DCS; d++) to[d] = (etcd_connection){.members = etcd_members(d), .fd = -1};
    for (;; usleep(1000))
        for (int d = 0; d < DCS; d++) (void)etcd_post(&to[d], "kv/deleterange", "{\"key\":\"cC8=\",\"range_end\":\"cDA=\"}");
}

/* Number 0 is old at every mark. */
static int answers(int dc) {
    const mz_wire probe = {.op = MZ_READ};
    mz_reply reply;
    mz_news news;
    return etcd_dc_perform(components[dc], &probe, &reply, &news) != MZ_LOST;
}

int servers_begin(const char *folder, const char *control) {
    int is_forgetful = control && !strcmp(control, "forgetful");
    is_untold = control && !strcmp(control, "untold");
    if (control && !is_forgetful && !is_untold) {
        fprintf(stderr, "etcd has no control %s\n", control);
        return 0;
    }
    text(at_folder, "%s", folder);
    setenv("ETCDCTL_API", "3", 1);
    first_port = FIRST_PORT + 2 * DCS * MEMBERS * (getpid() % RUNS);
    servers_start();
    if (!storage_open(folder, 0)) return 0;
    for (int d = 0; d < DCS; d++)
        for (int waited = 0; !answers(d); waited += 20) {
            if (waited > ANSWERS_WITHIN) return 0;
            usleep(20000);
        }
    for (int d = 0; d < DCS; d++) etcd_dc_close(components[d]);
    if (is_forgetful && (forgetting = fork()) == 0) forget_for_ever();
    return 1;
}

void servers_end(void) {
    for (int d = 0; d < DCS; d++)
        for (int m = 0; m < MEMBERS; m++) process_kill(pids[d][m]);
}

void servers_start(void) {
    for (int d = 0; d < DCS; d++)
        for (int m = 0; m < MEMBERS; m++) start(d, m);
}
