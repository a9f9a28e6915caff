/* Two SQLite files, each served by a process of its own on a socket. One that is killed loses nothing; one whose file is put
 * back from the copy that storage_keep took does, and begins the incarnation that a file beside it says. */
#include "storage.h"
#include "places.h"
#include "processes.h"
#include "sqlite_dc.h"
#include <poll.h>
#include <sys/socket.h>
#include <sys/un.h>

enum { PATH = 90, CALLERS = 32, MOST = 256 };

/* PERFORM: a batch; KEEP: storage_keep, with the wire's low_water as the mark; BEGIN: storage_begin, with its number as the former
 * session; FILL: of as many pages as there are where its redo is 1. */
typedef enum { PERFORM, KEEP, BEGIN, FILL } wish;
typedef struct { wish wish; size_t count; mz_wire wires[MOST]; } asked;
typedef struct { mz_carried carried; int done; mz_news news; size_t count; mz_reply replies[MOST]; } answered;

const unsigned servers_live = 200000;
int servers_synced;
mz_batched storage_components[DCS];

typedef struct {
    char file[PATH], copy[PATH], socket[PATH], losses[PATH];
    pid_t pid;
    int is_full;
    places places;
    int callers[PLACES]; /* of the client; -1 where there is none */
} server;

static server servers[DCS];

static int is_forgetful, is_untold;
static uint64_t session;

/* ---- the way to them */

static int called(const server *s) {
    struct sockaddr_un at = {.sun_family = AF_UNIX};
    int fd = socket(AF_UNIX, SOCK_SEQPACKET | SOCK_CLOEXEC, 0);
    memcpy(at.sun_path, s->socket, PATH);
    if (fd >= 0 && connect(fd, (struct sockaddr *)&at, sizeof at) == 0) return fd;
    close(fd);
    return -1;
}

/* The bytes of a message, whose last part has as many entries as there are. */
static size_t bytes_of(const asked *ask) { return offsetof(asked, wires) + ask->count * sizeof *ask->wires; }
static size_t bytes_back(const answered *answer) { return offsetof(answered, replies) + answer->count * sizeof *answer->replies; }

static void hang_up(server *s, int place) {
    if (s->callers[place] >= 0) close(s->callers[place]);
    s->callers[place] = -1;
    place_give(&s->places, place);
}

/* The place by which the answer comes, or -1. */
static int sent(void *to, wish wish, const mz_wire *wires, size_t count) {
    static _Thread_local asked ask;
    server *s = (server *)to;
    int place = place_take(&s->places);
    ask.wish = wish;
    ask.count = count;
    memcpy(ask.wires, wires, count * sizeof *wires);
    if (s->callers[place] < 0) s->callers[place] = called(s);
    if (s->callers[place] >= 0 && send(s->callers[place], &ask, bytes_of(&ask), MSG_NOSIGNAL) == (ssize_t)bytes_of(&ask)) return place;
    hang_up(s, place);
    return -1;
}

/* 0 where nobody answered. */
static int is_answered(void *by, int place, answered *answer) {
    server *s = (server *)by;
    if (place < 0) return 0;
    ssize_t bytes = recv(s->callers[place], answer, sizeof *answer, 0);
    if (bytes < (ssize_t)offsetof(answered, replies) || bytes != (ssize_t)bytes_back(answer)) {
        hang_up(s, place);
        return 0;
    }
    place_give(&s->places, place);
    return 1;
}

/* Whether a wish was done; -1 where nobody answered. */
static int done(int dc, wish wish, mz_wire wire) {
    static _Thread_local answered answer;
    return is_answered(&servers[dc], sent(&servers[dc], wish, &wire, 1), &answer) ? answer.done : -1;
}

static int send_batch(void *to, const mz_wire *wires, size_t count) { return sent(to, PERFORM, wires, count); }

/* Where nobody is served the session begins; who doesn't answer that serves nobody yet, and refuses nothing. */
static mz_carried receive_batch(void *by, int place, const mz_wire *wires, size_t count, mz_reply *replies, mz_news *news) {
    static _Thread_local answered answer;
    if (!is_answered(by, place, &answer)) return MZ_LOST;
    if (answer.carried == MZ_RETIRED && wires->session == session) {
        int begun = done(wires->record.dc, BEGIN, (mz_wire){.session = session});
        if (begun < 0 || (begun && !is_answered(by, send_batch(by, wires, count), &answer))) return MZ_LOST;
    }
    if (answer.carried == MZ_REPLIED) memcpy(replies, answer.replies, count * sizeof *replies);
    *news = answer.news;
    return answer.carried;
}

int storage_open(const char *folder, uint64_t wanted) {
    (void)folder;
    session = wanted;
    for (int d = 0; d < DCS; d++) {
        places_new(&servers[d].places);
        for (int i = 0; i < PLACES; i++) servers[d].callers[i] = -1;
        storage_components[d] = (mz_batched){&servers[d], send_batch, receive_batch, MOST};
    }
    return 1;
}

int storage_begin(uint16_t dc, uint64_t wanted, uint64_t former) {
    int is_begun = done(dc, BEGIN, (mz_wire){.session = wanted, .number = former}) == 1;
    if (is_begun) session = wanted;
    return is_begun;
}

int storage_keep(uint16_t dc, uint64_t incarnation, uint64_t mark) {
    return done(dc, KEEP, (mz_wire){.incarnation = incarnation, .low_water = mark}) == 1;
}

void storage_fill(uint16_t dc, int full) {
    servers[dc].is_full = full;
    (void)done(dc, FILL, (mz_wire){.redo = full});
}

/* ---- a server */

static int is_copied(sqlite_dc *dc, int d) {
    char beside[PATH + 8];
    snprintf(beside, sizeof beside, "%s.new", servers[d].copy);
    return sqlite_dc_copy(dc, beside) && rename(beside, servers[d].copy) == 0;
}

/* In this incarnation: brings all to the disk with the mark, and takes the copy. */
static int is_kept(sqlite_dc *dc, int d, const mz_wire *mark, uint64_t incarnation) {
    return mark->incarnation == incarnation && sqlite_dc_keep(dc, mark->low_water) && is_copied(dc, d);
}

/* A copy from before the session isn't put back any more. */
static int is_begun(sqlite_dc *dc, int d, const mz_wire *ask) {
    int had_copy = access(servers[d].copy, R_OK) == 0;
    return sqlite_dc_begin(dc, ask->session, ask->number) && (!had_copy || is_copied(dc, d));
}

static int losses(int d) {
    int count = 0;
    FILE *f = fopen(servers[d].losses, "r");
    if (f && fscanf(f, "%d", &count) != 1) count = 0;
    if (f) fclose(f);
    return count;
}

/* The file, in the incarnation that so many losses make. */
static sqlite_dc *opened(int d, uint64_t incarnation) {
    mz_news news;
    sqlite_dc *dc = sqlite_dc_open(servers[d].file, 0, SQLITE_DC_AT_KEEP);
    if (!dc) _exit(1);
    (void)sqlite_dc_put_back(dc, incarnation, &news); /* where it serves a session */
    if (servers[d].is_full) sqlite_dc_limit(dc, sqlite_dc_pages(dc));
    if (is_forgetful) sqlite_dc_forget_answers(dc);
    return dc;
}

static int listening(int d) {
    struct sockaddr_un at = {.sun_family = AF_UNIX};
    int fd = socket(AF_UNIX, SOCK_SEQPACKET | SOCK_CLOEXEC, 0);
    memcpy(at.sun_path, servers[d].socket, PATH);
    unlink(servers[d].socket);
    if (fd < 0 || bind(fd, (struct sockaddr *)&at, sizeof at) || listen(fd, CALLERS)) _exit(1);
    return fd;
}

/* Answers a caller; 0 where it is gone. */
static int served(sqlite_dc *dc, int d, int fd, uint64_t incarnation) {
    static asked ask;
    static answered answer;
    ssize_t bytes = recv(fd, &ask, sizeof ask, 0);
    if (bytes < (ssize_t)offsetof(asked, wires) || bytes != (ssize_t)bytes_of(&ask)) return 0;
    answer = (answered){.carried = MZ_LOST};
    if (ask.wish == PERFORM) answer.carried = sqlite_dc_perform_many(dc, ask.wires, ask.count, answer.replies, &answer.news);
    if (ask.wish == KEEP) answer.done = is_kept(dc, d, ask.wires, incarnation);
    if (ask.wish == BEGIN) answer.done = is_begun(dc, d, ask.wires);
    if (ask.wish == FILL) sqlite_dc_limit(dc, ask.wires->redo ? sqlite_dc_pages(dc) : 0);
    if (answer.carried == MZ_REPLIED) answer.count = ask.count;
    return send(fd, &answer, bytes_back(&answer), MSG_NOSIGNAL) == (ssize_t)bytes_back(&answer);
}

static void serve(int d) {
    uint64_t incarnation = is_untold ? 0 : (uint64_t)losses(d);
    sqlite_dc *dc = opened(d, incarnation);
    struct pollfd at[CALLERS + 1] = {{listening(d), POLLIN, 0}};
    int count = 1;
    for (; poll(at, (nfds_t)count, -1) > 0;) {
        for (int i = count; i-- > 1;)
            if (at[i].revents && !served(dc, d, at[i].fd, incarnation)) {
                close(at[i].fd);
                at[i] = at[--count];
            }
        if (at[0].revents && count <= CALLERS) at[count++] = (struct pollfd){accept(at[0].fd, NULL, NULL), POLLIN, 0};
    }
    _exit(1);
}

/* ---- the servers */

static void start(int d) {
    fflush(stdout);
    servers[d].pid = fork();
    if (servers[d].pid) return;
    prctl(PR_SET_PDEATHSIG, SIGKILL);
    serve(d);
}

unsigned servers_kill(uint16_t dc, unsigned drawn) {
    (void)drawn;
    process_kill(servers[dc].pid);
    start(dc);
    return 1;
}

/* One more loss stands beside the file before the copy is in its place. Where no copy was taken yet nothing is lost. */
unsigned servers_lose(uint16_t dc) {
    process_kill(servers[dc].pid);
    if (access(servers[dc].copy, R_OK) == 0) {
        int count = losses(dc) + 1;
        FILE *f = fopen(servers[dc].losses, "w");
        if (!f || fprintf(f, "%d\n", count) < 0 || fclose(f)) exit(2);
        const char *copied[] = {"cp", servers[dc].copy, servers[dc].file, NULL};
        const char *removed[] = {"sh", "-c", "rm -f \"$0\"-wal \"$0\"-shm", servers[dc].file, NULL};
        if (!process_runs(removed, "/dev/null", NULL) || !process_runs(copied, "/dev/null", NULL)) exit(2);
    }
    start(dc);
    return 1;
}

int servers_begin(const char *folder, const char *control) {
    is_forgetful = control && !strcmp(control, "forgetful");
    is_untold = control && !strcmp(control, "untold");
    if (control && !is_forgetful && !is_untold) {
        fprintf(stderr, "SQLite has no control %s\n", control);
        return 0;
    }
    for (int d = 0; d < DCS; d++)
        if (snprintf(servers[d].file, PATH, "%s/%d.db", folder, d) >= PATH - 8) {
            fprintf(stderr, "too long a name: %s\n", folder);
            return 0;
        }
    for (int d = 0; d < DCS; d++) {
        snprintf(servers[d].copy, PATH, "%s/%d.copy", folder, d);
        snprintf(servers[d].socket, PATH, "%s/%d.sock", folder, d);
        snprintf(servers[d].losses, PATH, "%s/%d.losses", folder, d);
    }
    servers_start();
    return 1;
}

void servers_end(void) {
    for (int d = 0; d < DCS; d++) process_kill(servers[d].pid);
}

void servers_start(void) {
    for (int d = 0; d < DCS; d++) start(d);
}
