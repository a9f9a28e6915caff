/* Nodes that take over from one another, over a log's home of three members and two data components, while faults are
 * made:
 *
 *     failover OBJECT FOLDER THREADS FAULTS SILENCE KINDS [WORD]
 *
 * SILENCE: milliseconds after which a standby takes over. KINDS: a letter for each kind of fault, one of which is
 * drawn each time:
 *
 *     k  SIGKILL of the leader             s  SIGSTOP, and SIGCONT after its successor leads
 *     m  its beats are lost, it goes on    e  SIGKILL of a member of the home with the leader
 *     q  no majority of the home for 1.5 s d  a data component is killed, each second time so that it loses what it may
 *
 * Each wire may be late, each sixteenth reply is lost, zombies send again (node.c), and the log is cut in between. At
 * the end all nodes are killed, one takes over, and has to find each transfer that was told, none twice, each balance
 * as the log says, and the sum. Status 1: that isn't so, or no call gets on.
 *
 * WORD: `uncut`: the log is never cut. Controls: `unwritten`, wires before the log; `marks_first`, marks before the
 * log. Then 1 is what has to be seen, as it has with a home that compares nothing. */
#include "node.h"
#include "home.h"
#include "killed.h"
#include "storage.h"
#include <string.h>
#include <sys/prctl.h>

enum { PATIENCE = 60, AWAY = 1500000, FURTHER = 20, MOMENT = 700000, SOON = 50000, BETWEEN = 40, OFTEN = 5, SUPERSEDED_BEFORE = 6 };

static node_plan p;
static pid_t pids[NODES];
static uint64_t continued_at[NODES], took[MOST_REIGNS];
static const char *wrong;
static struct { uint64_t of[128], all, timed; } count;

static const uint64_t SECOND = 1000000;

/* ---- nodes */

static void begin_node(int n) {
    fflush(stdout);
    pids[n] = fork();
    if (pids[n]) return;
    prctl(PR_SET_PDEATHSIG, SIGKILL);
    _exit(node_live(&p, n));
}

/* Those that have ended begin again, and those that were stopped go on when it is time. */
static void look(void) {
    for (int n = 0; n < NODES; n++) {
        int status = 0;
        if (continued_at[n] && node_now() > continued_at[n]) {
            kill(pids[n], SIGCONT);
            continued_at[n] = 0;
        }
        if (waitpid(pids[n], &status, WNOHANG) != pids[n]) continue;
        if (WIFEXITED(status) && WEXITSTATUS(status) != SUPERSEDED) wrong = "a node can't go on";
        continued_at[n] = 0;
        begin_node(n);
    }
}

/* Until this reign, or a later one, has told a transfer: 1; 0 after this many seconds, or where something is wrong. */
static int has_told(uint64_t reign, uint64_t seconds) {
    for (uint64_t since = node_now(); !wrong && node_now() - since < seconds * SECOND; usleep(1000)) {
        uint64_t reigns = p.seen->reigns;
        look();
        if (reigns > reign && p.seen->of[reigns - 1].first) return 1;
    }
    return 0;
}

static int tells_further(void) {
    uint64_t told = transfers_told(&p.client);
    for (uint64_t since = node_now(); !wrong && node_now() - since < PATIENCE * SECOND; usleep(2000)) {
        look();
        if (transfers_told(&p.client) >= told + FURTHER) return 1;
    }
    return 0;
}

/* ---- faults */

static void waits(uint64_t microseconds) {
    for (uint64_t since = node_now(); node_now() - since < microseconds; usleep(2000)) look();
}

/* Nobody is killed but of the home or a data component, and calls get on afterwards. */
static int beside(char kind, int drawn) {
    int member = drawn % HOMES;
    if (kind == 'd') {
        if (count.of['d'] % 2) servers_kill((uint16_t)(drawn % DCS), 0);
        else servers_lose((uint16_t)(drawn % DCS));
        return tells_further();
    }
    for (int i = 0; i < 2; i++) home_kill((member + i) % HOMES);
    waits(AWAY);
    for (int i = 0; i < 2; i++) home_start((member + i) % HOMES);
    return tells_further();
}

static void strike(char kind, int node, int drawn) {
    if (kind == 'e') home_kill(drawn % HOMES);
    if (kind == 'k' || kind == 'e') kill(pids[node], SIGKILL);
    if (kind == 's') {
        kill(pids[node], SIGSTOP);
        continued_at[node] = node_now() + p.silence * 1000 + (unsigned)rand() % (2 * SECOND);
    }
    if (kind == 'm') p.seen->is_mute[node] = 1;
}

/* Until a random moment, each second time one soon after storage is told a mark. */
static void await_a_fault(void) {
    if (count.all % 2) {
        waits((unsigned)rand() % MOMENT);
        return;
    }
    p.seen->client.keeps = 0;
    for (uint64_t since = node_now(); !p.seen->client.keeps && node_now() - since < 5 * SECOND; usleep(1000)) look();
    usleep((unsigned)rand() % SOON);
}

/* One of a leader that has told something. It may hit one that was superseded a moment ago: then the leader goes on. */
static int fault(char kind) {
    if (!has_told(p.seen->reigns - 1, PATIENCE)) return 0;
    await_a_fault();
    uint64_t reign = p.seen->reigns - 1, at = node_now();
    int drawn = rand();
    count.of[(int)kind]++;
    count.all++;
    if (kind == 'd' || kind == 'q') return beside(kind, drawn);
    strike(kind, p.seen->of[reign].node, drawn);
    int is_taken = has_told(reign + 1, SUPERSEDED_BEFORE);
    if (is_taken && p.seen->of[reign + 1].first) took[count.timed++] = p.seen->of[reign + 1].first - at;
    if (kind == 'e') home_start(drawn % HOMES);
    return is_taken || tells_further();
}

/* ---- the end */

static int in_order(const void *a, const void *b) {
    uint64_t x = *(const uint64_t *)a, y = *(const uint64_t *)b;
    return x < y ? -1 : x > y;
}

static double part_of_times(uint64_t percent) {
    if (!count.timed) return 0;
    qsort(took, count.timed, sizeof *took, in_order);
    return (double)took[count.timed * percent / 100] / 1e3;
}

/* All die at once, and the next one finds all that was told. */
static const char *checked(void) {
    int status = 0;
    for (int n = 0; n < NODES; n++) kill(pids[n], SIGKILL);
    for (int n = 0; n < NODES; n++) waitpid(pids[n], NULL, 0);
    fflush(stdout);
    pid_t child = fork();
    if (child == 0) _exit(node_check(&p));
    for (uint64_t since = node_now(); !has_ended(child) && node_now() - since < PATIENCE * SECOND;) usleep(10000);
    kill(child, SIGKILL);
    if (waitpid(child, &status, 0) != child || !WIFEXITED(status)) return "the last one doesn't get on";
    return WEXITSTATUS(status) == 0 ? NULL : WEXITSTATUS(status) == 3 ? "the accounts aren't right" : "the last one can't go on";
}

static void run(uint64_t faults, const char *kinds) {
    for (int n = 0; n < NODES; n++) begin_node(n);
    if (!has_told(0, PATIENCE) && !wrong) wrong = "nobody leads";
    for (uint64_t i = 0; !wrong && i < faults; i++)
        if (!fault(kinds[(unsigned)rand() % strlen(kinds)]) && !wrong) wrong = "no call gets on";
    uint64_t told = transfers_told(&p.client);
    const char *at_end = checked();
    if (!wrong) wrong = at_end;
    const uint64_t *of = count.of;
    printf("%llu faults (k %llu, s %llu, m %llu, e %llu, q %llu, d %llu), %llu reigns, %llu told, %llu checkpoints; "
           "%llu zombies, %llu replies to what they sent again, %llu late wires; take-over: median %.0f ms, 90 %% %.0f ms: %s\n",
           (unsigned long long)count.all, (unsigned long long)of['k'], (unsigned long long)of['s'], (unsigned long long)of['m'],
           (unsigned long long)of['e'], (unsigned long long)of['q'], (unsigned long long)of['d'], (unsigned long long)p.seen->reigns,
           (unsigned long long)told, (unsigned long long)p.seen->client.checkpoints, (unsigned long long)p.seen->zombies,
           (unsigned long long)p.seen->repeated, (unsigned long long)p.seen->late, part_of_times(50), part_of_times(90),
           wrong ? wrong : "none lost, none twice, the rows are the log's, the sum is right");
}

int main(int argc, char **argv) {
    const char *word = argc > 7 ? argv[7] : "";
    int is_uncut = !strcmp(word, "uncut"), is_early = !strcmp(word, "marks_first");
    if (argc < 7 || argc > 8) {
        fprintf(stderr, "failover OBJECT FOLDER THREADS FAULTS SILENCE KINDS [uncut|unwritten|marks_first]\n");
        return 2;
    }
    p.seen = (shared *)shared_by_lives(sizeof *p.seen);
    p.silence = (unsigned)atoi(argv[5]);
    p.client = (plan){.object = argv[1], .folder = argv[2], .threads = strtoull(argv[3], NULL, 10), .transfers = UINT64_MAX,
                      .between = is_uncut ? 0 : is_early ? OFTEN : BETWEEN, .unwritten = !strcmp(word, "unwritten"),
                      .marks_first = is_early, .losing = 1, .synced = 1, .seen = &p.seen->client};
    int are_words = !*word || is_uncut || p.client.unwritten || is_early;
    int are_kinds = *argv[6] && strspn(argv[6], "ksmeqd") == strlen(argv[6]);
    if (!are_words || !are_kinds || !p.silence || p.client.threads < 1 || p.client.threads > THREADS) return 2;
    if (!servers_begin(argv[2], NULL) || !home_begin(argv[2])) return 2;
    srand((unsigned)getpid());
    run(strtoull(argv[4], NULL, 10), argv[6]);
    servers_end();
    for (int m = 0; m < HOMES; m++) home_kill(m);
    return wrong != NULL;
}
