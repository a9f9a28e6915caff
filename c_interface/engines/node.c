/* Zombies are as bad as they can be here: who was superseded sends its last wires again and again before it ends, one whose beats are lost
 * goes on for seconds, and now and then a wire waits between the log and its way. */
#include "node.h"
#include "home.h"
#include "storage.h"
#include <time.h>

enum { RECENT = 256, BEATS = 8, STORM = 1500000, GOES_ON = 3000000, LATE = 200, LATEST = 3000, SLOW = 60000 };

static struct {
    const node_plan *plan;
    int node;
    void *home;
    reign *reign;
    mz_device device;
    _Atomic(mz_log *) log;
    mz_wire recent[RECENT];
    _Atomic uint64_t carried;
    _Atomic int is_over;
} self;

uint64_t node_now(void) {
    struct timespec t;
    clock_gettime(CLOCK_MONOTONIC, &t);
    return (uint64_t)t.tv_sec * 1000000 + (uint64_t)t.tv_nsec / 1000;
}

/* ---- what a zombie does */

/* By one thread; the others do nothing more. */
static void superseded(void) {
    mz_reply reply;
    mz_news news;
    while (__atomic_exchange_n(&self.is_over, 1, __ATOMIC_SEQ_CST)) sleep(1);
    shared *s = self.plan->seen;
    uint64_t until = node_now() + STORM, carried = self.carried, count = carried < RECENT ? carried : RECENT;
    __atomic_add_fetch(&s->zombies, 1, __ATOMIC_SEQ_CST);
    for (uint64_t i = 0; count && node_now() < until; i++) {
        const mz_wire wire = self.recent[(carried - 1 - i % count) % RECENT];
        if (wire.number && storage_carry(&wire, &reply, &news) == MZ_REPLIED) __atomic_add_fetch(&s->repeated, 1, __ATOMIC_SEQ_CST);
    }
    _exit(SUPERSEDED);
}

static void carries(const mz_wire *wire) {
    uint64_t n = self.carried++;
    self.recent[n % RECENT] = *wire;
    if ((n * 2654435761u + (unsigned)getpid()) % LATE) return;
    __atomic_add_fetch(&self.plan->seen->late, 1, __ATOMIC_SEQ_CST);
    usleep((unsigned)(n * 40503u % LATEST) * 1000);
}

/* ---- what a leader does */

static void tells(void) {
    if (!self.reign->first) self.reign->first = node_now();
}

/* Whether the epoch is ours: also where nobody is to hear a beat. */
static int is_ours(void) {
    mz_log *log = self.log;
    if (!self.plan->seen->is_mute[self.node]) return home_beat(self.home);
    return !log || mz_log_check(log) == MZ_OK;
}

static void *beats(void *context) {
    uint64_t lost = 0;
    for (; !lost || node_now() - lost < GOES_ON; usleep(self.plan->silence * 1000 / BEATS))
        if (!is_ours() && !lost) lost = node_now();
    superseded();
    return context;
}

/* So that a mark may come before the answer that it counts. */
static int append_slowly(void *context, const void *bytes, size_t count) {
    usleep(SLOW);
    return self.device.append(context, bytes, count);
}

static mz_code opens(mz_tc *tc, mz_log **log, mz_log_found *found) {
    self.device = home_device(self.home);
    mz_device device = self.device;
    if (self.plan->client.marks_first) device.append = append_slowly;
    mz_code c = mz_log_take_over(tc, &device, home_read, log, found);
    self.log = *log;
    return c;
}

static const log_home own_home = {opens, carries, tells, superseded};

/* 1: the epoch is ours. */
static int is_leader(const node_plan *p, int node) {
    self.plan = p;
    self.node = node;
    self.home = home_open(p->silence);
    return self.home && home_await(self.home);
}

int node_live(const node_plan *p, int node) {
    pthread_t thread;
    if (!is_leader(p, node)) return 1;
    uint64_t i = __atomic_fetch_add(&p->seen->reigns, 1, __ATOMIC_SEQ_CST);
    if (i >= MOST_REIGNS) return 1;
    self.reign = &p->seen->of[i];
    self.reign->node = node;
    self.reign->took = node_now();
    p->seen->is_mute[node] = 0;
    if (pthread_create(&thread, NULL, beats, NULL)) return 1;
    plan own = p->client;
    own.home = &own_home;
    return client_live(&own);
}

/* ---- the one that checks */

static mz_code read_and_copy(void *home, uint8_t **bytes, size_t *count, uint64_t *session) {
    char path[512];
    mz_code c = home_read(home, bytes, count, session);
    snprintf(path, sizeof path, "%s/log", self.plan->client.folder);
    FILE *copy = c == MZ_OK ? fopen(path, "wb") : NULL;
    if (copy) fwrite(*bytes, 1, *count, copy);
    if (copy) fclose(copy);
    return c;
}

static mz_code opens_to_check(mz_tc *tc, mz_log **log, mz_log_found *found) {
    const mz_device device = home_device(self.home);
    return mz_log_take_over(tc, &device, read_and_copy, log, found);
}

int node_check(const node_plan *p) {
    static const log_home checked = {opens_to_check, carries, tells, superseded};
    if (!is_leader(p, 0)) return 1;
    plan own = p->client;
    own.home = &checked;
    return client_check(&own, p->seen->reigns);
}
