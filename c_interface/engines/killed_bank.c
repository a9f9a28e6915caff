/* A bank whose client and servers are ended by SIGKILL at random moments (client.h, storage.h):
 *
 *     killed_bank OBJECT FOLDER THREADS WHO KILLS [CONTROL]
 *
 * WHO: `client`, `servers`, `both`, sometimes at once; or `outage`: all servers are away for KILLS seconds in the
 * middle of 1,000 transfers, and nobody is killed else. It ends with status 1 where a transfer that was told is lost, one
 * was made twice, the sum isn't right, a transaction that was open doesn't come back, or no call gets on.
 *
 * CONTROL: `unwritten`, the client writes nothing ahead; or what the storage makes wrong. Then 1 is what has to be seen. */
#include "client.h"
#include "killed.h"
#include "storage.h"
#include <string.h>
#include <sys/prctl.h>
#include <time.h>

enum { LAST = 400, OUTAGE = 1000, BETWEEN = 200, CLIENT_LIVES = 120000, PATIENCE = 60 };

typedef enum { OF_CLIENT = 1, OF_SERVERS = 2, OF_BOTH = 3 } whose;

static struct { uint64_t kills, client, servers; } count;
static pid_t client;
static plan p;

static void begin_client(void) {
    fflush(stdout);
    client = fork();
    if (client == 0) {
        prctl(PR_SET_PDEATHSIG, SIGKILL);
        _exit(client_live(&p));
    }
    if (client < 0) exit(2);
}

static uint64_t seconds_long(time_t since) { return (uint64_t)difftime(time(NULL), since); }

static const char *ended_as(int status) {
    if (WIFEXITED(status) && WEXITSTATUS(status) == 0) return p.seen->last ? NULL : "the client ended too early";
    return WIFEXITED(status) && WEXITSTATUS(status) == 3 ? "the accounts aren't right" : "the client can't go on";
}

/* Until more than so many transfers were told, or the client has ended; 0 where it stands still. */
static int gets_beyond(uint64_t told) {
    time_t began = time(NULL);
    while (transfers_told(&p) <= told && !has_ended(client)) {
        if (seconds_long(began) > PATIENCE) return 0;
        usleep(2000);
    }
    return 1;
}

/* Why the end that it comes to is wrong, or NULL. */
static const char *end_of_client(void) {
    int status = 0;
    uint64_t told = transfers_told(&p);
    for (time_t began = time(NULL); !has_ended(client); usleep(2000)) {
        if (transfers_told(&p) > told) began = time(NULL);
        told = transfers_told(&p);
        if (seconds_long(began) > PATIENCE) return "no call gets on";
    }
    waitpid(client, &status, 0);
    client = 0;
    return ended_as(status);
}

static void kill_client(void) {
    kill(client, SIGKILL);
    waitpid(client, NULL, 0);
}

/* Each eighth time one loses what it may. */
static unsigned of_servers(unsigned drawn) {
    uint16_t dc = drawn % DCS;
    return drawn / DCS % 8 ? servers_kill(dc, drawn / DCS / 8) : servers_lose(dc);
}

/* At a random moment; each fourth time behind a transfer that was told since the last. */
static const char *kill_one(whose who) {
    unsigned drawn = (unsigned)rand(), most = who == OF_CLIENT ? CLIENT_LIVES : servers_live;
    if (count.kills % 4 == 3 && !gets_beyond(transfers_told(&p))) return "no call gets on";
    usleep((unsigned)rand() % most);
    if (has_ended(client)) return end_of_client();
    if (who == OF_BOTH) who = (whose)(1 + drawn % 3);
    if (who & OF_CLIENT) kill_client();
    if (who & OF_SERVERS) count.servers += of_servers(drawn / 3);
    if (who & OF_CLIENT) begin_client();
    count.client += who != OF_SERVERS;
    count.kills++;
    return NULL;
}

static const char *killed(whose who, uint64_t kills) {
    const char *wrong = NULL;
    begin_client();
    while (!wrong && count.kills < kills) wrong = kill_one(who);
    p.seen->last = 1;
    return wrong ? wrong : end_of_client();
}

static const char *outlasted(unsigned seconds) {
    p.transfers = OUTAGE;
    p.seen->last = 1;
    begin_client();
    if (!gets_beyond(OUTAGE / 2)) return "no call gets on";
    servers_end();
    sleep(seconds);
    servers_start();
    return end_of_client();
}

int main(int argc, char **argv) {
    static const char *const words[] = {"", "client", "servers", "both"};
    const char *control = argc > 6 ? argv[6] : NULL, *wrong = "there is no such word";
    if (argc < 6 || argc > 7) {
        fprintf(stderr, "killed_bank OBJECT FOLDER THREADS client|servers|both|outage KILLS [CONTROL]\n");
        return 2;
    }
    p = (plan){.object = argv[1], .folder = argv[2], .threads = strtoull(argv[3], NULL, 10), .transfers = LAST, .between = BETWEEN,
               .losing = 1, .seen = (seen *)shared_by_lives(sizeof(seen))};
    p.unwritten = control && !strcmp(control, "unwritten");
    if (p.threads < 1 || p.threads > THREADS || !servers_begin(p.folder, p.unwritten ? NULL : control)) return 2;
    if (!strcmp(argv[4], "outage")) wrong = outlasted((unsigned)atoi(argv[5]));
    for (whose who = OF_CLIENT; who <= OF_BOTH; who++)
        if (!strcmp(argv[4], words[who])) wrong = killed(who, strtoull(argv[5], NULL, 10));
    if (client) kill_client();
    servers_end();
    printf("%llu kills (client %llu, servers %llu), %llu threads, %llu transfers told, longest call %.1f s, %llu open came back, "
           "%llu checkpoints, %llu news, %llu wires of redo: %s\n",
           (unsigned long long)count.kills, (unsigned long long)count.client, (unsigned long long)count.servers, (unsigned long long)p.threads,
           (unsigned long long)transfers_told(&p), (double)p.seen->longest / 1e6, (unsigned long long)p.seen->came_back,
           (unsigned long long)p.seen->checkpoints, (unsigned long long)p.seen->restarts, (unsigned long long)p.seen->redone,
           wrong ? wrong : "none lost, none in doubt, the sum is right");
    return wrong != NULL;
}
