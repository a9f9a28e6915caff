/* How many transfers a second are made through a log that outlives its machine (home.h), beside the same with the log
 * in a local file, which is synced; one after the other, without faults:
 *
 *     home_figures OBJECT FOLDER THREADS SECONDS */
#include "client.h"
#include "home.h"
#include "killed.h"
#include "processes.h"
#include "storage.h"
#include <sys/stat.h>

enum { SILENCE = 400, WARM = 1, OPENS_WITHIN = 60, BETWEEN = 2000 };

static mz_code opens(mz_tc *tc, mz_log **log, mz_log_found *found) {
    void *home = home_open(SILENCE);
    if (!home || !home_await(home)) return MZ_MEMORY;
    const mz_device device = home_device(home);
    return mz_log_take_over(tc, &device, home_read, log, found);
}

static void carries(const mz_wire *wire) { (void)wire; }
static void tells(void) {}
static void superseded(void) { _exit(SUPERSEDED); }

static const log_home own_home = {opens, carries, tells, superseded};

/* How many in so many seconds, by a client of its own in this folder; 0 where none are made. */
static uint64_t made(plan p, unsigned seconds) {
    p.seen = (seen *)shared_by_lives(sizeof *p.seen);
    if (!servers_begin(p.folder, NULL)) exit(2);
    fflush(stdout);
    pid_t client = fork();
    if (client == 0) {
        prctl(PR_SET_PDEATHSIG, SIGKILL);
        _exit(client_live(&p));
    }
    for (unsigned waited = 0; !p.seen->opened && waited < OPENS_WITHIN * 100; waited++) usleep(10000);
    sleep(WARM);
    uint64_t before = transfers_told(&p);
    sleep(seconds);
    uint64_t count = transfers_told(&p) - before;
    process_kill(client);
    servers_end();
    return count;
}

int main(int argc, char **argv) {
    char file[300], home[300];
    unsigned seconds = argc == 5 ? (unsigned)atoi(argv[4]) : 0;
    plan p = {.object = argc == 5 ? argv[1] : NULL, .transfers = UINT64_MAX, .between = BETWEEN, .synced = 1};
    p.threads = seconds ? strtoull(argv[3], NULL, 10) : 0;
    if (p.threads < 1 || p.threads > THREADS || !home_begin(argv[2])) return 2;
    snprintf(file, sizeof file, "%s/file", argv[2]);
    snprintf(home, sizeof home, "%s/home", argv[2]);
    if (mkdir(file, 0711) || mkdir(home, 0711)) return 2;
    p.folder = file;
    uint64_t by_file = made(p, seconds);
    p.folder = home;
    p.home = &own_home;
    uint64_t by_home = made(p, seconds);
    for (int m = 0; m < HOMES; m++) home_kill(m);
    printf("%llu calls at once, %u s each: %.0f a second by a local file, %.0f by a home of %d members: %.2f of it\n",
           (unsigned long long)p.threads, seconds, (double)by_file / seconds, (double)by_home / seconds, HOMES,
           by_file ? (double)by_home / (double)by_file : 0);
    return !by_file || !by_home;
}
