/* The bank over two SQLite files, each served by a process of its own that is killed with SIGKILL again and
 * again, mostly behind its commit and before its reply:
 *
 *     bank_sqlite FOLDER ACCOUNTS TRANSFERS KILL_ONE_IN [WORD]..
 *
 * Behind each transfer a call writes and aborts. Once in a run each file is copied, goes on, and is put back
 * from the copy, so that it has lost what came between: its process tells that it is another incarnation,
 * and what it lost is redone. It prints what came of all that, and the sum of the accounts,
 * which has to stay: status 1 where it doesn't, or where a file is told to have diverged.
 *
 * Words: `durable`, each wire is on disk before it is answered; `forgetful`, a control: what was performed
 * is performed again where it comes again; `untold`, a control: nobody is told that a file was put back. */
#include "mazzulpe_object.h"
#include "sqlite_dc.h"
#include <signal.h>
#include <stdio.h>
#include <sys/socket.h>
#include <sys/wait.h>
#include <time.h>
#include <unistd.h>

enum { SERVERS = 2, OPENING = 100, TRIES = 50 };

typedef struct { mz_carried carried; mz_reply reply; mz_news news; } message;

static struct server {
    char path[512], copy[512];
    pid_t pid;
    int fd;
    uint64_t put_back_as; /* the incarnation that it begins, where the file was put back */
} servers[SERVERS];

static struct { uint64_t session; int kill_one_in, forgetful, untold; sqlite_dc_durable durable; } wanted;
static struct { long carried, unanswered, kills, put_back, redone; } seen;

static void serve(struct server *s, int fd) {
    mz_news news;
    sqlite_dc *dc = sqlite_dc_open(s->path, wanted.session, wanted.durable);
    if (!dc || (s->put_back_as && !sqlite_dc_put_back(dc, s->put_back_as, &news))) _exit(1);
    if (wanted.forgetful) sqlite_dc_forget_answers(dc);
    srand((unsigned)getpid());
    mz_wire wire;
    message m;
    while (read(fd, &wire, sizeof wire) == sizeof wire) {
        m.carried = sqlite_dc_perform(dc, &wire, &m.reply, &m.news);
        if (wanted.kill_one_in && rand() % wanted.kill_one_in == 0) kill(getpid(), SIGKILL);
        if (write(fd, &m, sizeof m) != sizeof m) break;
    }
    sqlite_dc_close(dc);
    _exit(0);
}

static void start(struct server *s) {
    int pair[2];
    if (socketpair(AF_UNIX, SOCK_SEQPACKET, 0, pair)) {
        perror("socketpair");
        exit(1);
    }
    s->pid = fork();
    if (s->pid == 0) {
        for (int i = 0; i < SERVERS; i++)
            if (servers[i].fd >= 0) close(servers[i].fd);
        close(pair[0]);
        serve(s, pair[1]);
    }
    close(pair[1]);
    s->fd = pair[0];
    s->put_back_as = 0;
}

static void stop(struct server *s) {
    close(s->fd);
    s->fd = -1;
    waitpid(s->pid, NULL, 0);
}

static mz_carried carry(void *context, const mz_wire *wire, mz_reply *reply, mz_news *news) {
    (void)context;
    struct server *s = &servers[wire->record.dc];
    message m;
    seen.carried++;
    seen.redone += wire->redo;
    if (send(s->fd, wire, sizeof *wire, MSG_NOSIGNAL) == sizeof *wire && recv(s->fd, &m, sizeof m, 0) == sizeof m) {
        *reply = m.reply;
        *news = m.news;
        return m.carried;
    }
    seen.unanswered++;
    seen.kills++;
    stop(s);
    start(s);
    return MZ_LOST;
}

static void die(const char *what, mz_code code) {
    fprintf(stderr, "%s: %s\n", what, mz_code_text(code));
    exit(1);
}

/* How calls ended, by their outcome; in place of one those that are in doubt, or whose locks such a one holds. */
static long ended[4];

static void call(mz_tc *tc, uint64_t procedure, const uint64_t *args, size_t count) {
    uint64_t txn;
    mz_receipt r;
    mz_next stopped;
    mz_code c = mz_admit(tc, procedure, args, count, &txn, NULL, NULL);
    if (c == MZ_BUSY) {
        ended[0]++;
        return;
    }
    if (c != MZ_OK) die("admit", c);
    c = mz_run(tc, txn, carry, NULL, TRIES, &r, &stopped);
    if (c == MZ_DIVERGED) {
        mz_reply reply = {0, 0, MZ_OLD, {0}};
        mz_refused_reply(tc, NULL, &reply);
        printf("diverged: number %llu\n", (unsigned long long)reply.number);
        exit(1);
    }
    if (c == MZ_OK && stopped == MZ_WAITS) c = mz_give_up(tc, txn, NULL);
    if (c != MZ_OK) die("run", c);
    ended[stopped == MZ_OVER ? r.outcome : 0]++;
}

static uint64_t find(mz_tc *tc, const char *name) {
    uint64_t number = 0;
    mz_code c = mz_find(tc, name, &number);
    if (c != MZ_OK) die(name, c);
    return number;
}

/* Copies a file whose process is stopped, or puts the copy back in its place. */
static void copy(struct server *s) {
    stop(s);
    sqlite_dc *dc = sqlite_dc_open(s->path, wanted.session, wanted.durable);
    if (!dc || !sqlite_dc_copy(dc, s->copy)) exit(1);
    sqlite_dc_close(dc);
    start(s);
}

static void put_back(mz_tc *tc, uint16_t dc) {
    struct server *s = &servers[dc];
    char other[520];
    uint64_t known = 0;
    stop(s);
    for (const char *const *end = (const char *const[]){"-wal", "-shm", NULL}; *end; end++) {
        snprintf(other, sizeof other, "%s%s", s->path, *end);
        remove(other);
    }
    if (rename(s->copy, s->path)) {
        perror(s->copy);
        exit(1);
    }
    mz_site(tc, dc, &known, NULL);
    s->put_back_as = wanted.untold ? 0 : known + 1;
    seen.put_back++;
    start(s);
}

static int64_t sum_of_all(void) {
    int64_t sum = 0;
    for (int i = 0; i < SERVERS; i++) {
        stop(&servers[i]);
        sqlite_dc *dc = sqlite_dc_open(servers[i].path, wanted.session, wanted.durable);
        if (!dc) exit(1);
        sum += sqlite_dc_sum(dc);
        sqlite_dc_close(dc);
    }
    return sum;
}

static void transfers(mz_tc *tc, uint64_t accounts, long count) {
    uint64_t move = find(tc, "move"), move_back = find(tc, "move_back"), touch = find(tc, "touch");
    for (long i = 0; i < count; i++) {
        uint64_t args[3] = {(uint64_t)rand() % accounts, (uint64_t)rand() % accounts, (uint64_t)rand() % 150};
        uint16_t dc = i > count / 2;
        long behind = i - dc * (count / 2 + 1);
        if (behind == count / 8) copy(&servers[dc]);
        if (behind == count / 4) put_back(tc, dc);
        call(tc, rand() % 2 ? move : move_back, args, 3);
        call(tc, touch, args, 1);
    }
}

static double seconds(void) {
    struct timespec t;
    clock_gettime(CLOCK_MONOTONIC, &t);
    return (double)t.tv_sec + (double)t.tv_nsec / 1e9;
}

int main(int argc, char **argv) {
    if (argc < 5) {
        fprintf(stderr, "bank_sqlite FOLDER ACCOUNTS TRANSFERS KILL_ONE_IN [durable] [forgetful] [untold]\n");
        return 2;
    }
    uint64_t accounts = strtoull(argv[2], NULL, 10);
    long count = atol(argv[3]);
    wanted.kill_one_in = atoi(argv[4]);
    wanted.session = ((uint64_t)time(NULL) * 1000003u + (uint64_t)getpid()) >> 2;
    for (int i = 5; i < argc; i++) {
        if (!strcmp(argv[i], "durable")) wanted.durable = SQLITE_DC_AT_ONCE;
        wanted.forgetful |= !strcmp(argv[i], "forgetful");
        wanted.untold |= !strcmp(argv[i], "untold");
    }
    for (int i = 0; i < SERVERS; i++) servers[i].fd = -1;
    for (int i = 0; i < SERVERS; i++) {
        snprintf(servers[i].path, sizeof servers[i].path, "%s/%c.db", argv[1], 'a' + i);
        snprintf(servers[i].copy, sizeof servers[i].copy, "%s/%c.copy", argv[1], 'a' + i);
        start(&servers[i]);
    }
    mz_code c;
    char refused[MZ_NAME + 1];
    mz_tc *tc = mz_tc_new(SERVERS, &c);
    if (!tc) die("mz_tc_new", c);
    c = mz_set_session(tc, wanted.session);
    if (c == MZ_OK) c = mz_load_object_file(tc, "build/bank.o", refused, NULL);
    if (c != MZ_OK) die(refused, c);
    srand(7);
    for (uint64_t a = 0; a < accounts; a++) {
        call(tc, find(tc, "deposit_here"), (uint64_t[]){a, OPENING}, 2);
        call(tc, find(tc, "deposit_there"), (uint64_t[]){a, OPENING}, 2);
    }
    printf("opened %ld accounts\n", ended[MZ_COMMITTED]);
    memset(ended, 0, sizeof ended);
    double began = seconds();
    transfers(tc, accounts, count);
    double took = seconds() - began;
    printf("committed %ld aborted %ld in doubt or blocked %ld\n", ended[MZ_COMMITTED], ended[MZ_ABORTED], ended[0]);
    int64_t sum = sum_of_all(), deposited = (int64_t)(SERVERS * OPENING * accounts);
    printf("sum %lld, deposited %lld\n", (long long)sum, (long long)deposited);
    fprintf(stderr, "wires %ld, unanswered %ld, servers killed %ld, files put back %ld, wires of redo %ld, %.0f calls a second\n",
            seen.carried, seen.unanswered, seen.kills, seen.put_back, seen.redone, 2 * (double)count / took);
    mz_tc_free(tc);
    return sum == deposited ? 0 : 1;
}
