/* A storage of storage.h as `make try_component` wants a data component: its first one. CONTROL in the environment is
 * what it makes wrong. */
#include "component.h"
#include "processes.h"
#include "storage.h"

enum { COMES_BACK_WITHIN = 60000, BETWEEN_KILLS = 30 };

struct component {
    uint64_t incarnation; /* the greatest of a wire */
    unsigned kills, answered; /* answered: replies since the last kill */
    char folder[300];
};

/* Number 0 is old at every mark, and what undoes is answered also where it is full. */
static int answers(component *c) {
    const mz_wire probe = {.incarnation = __atomic_load_n(&c->incarnation, __ATOMIC_SEQ_CST), .op = MZ_READ, .undoes = 1};
    mz_reply reply;
    mz_news news;
    return storage_carry(&probe, &reply, &news) != MZ_LOST;
}

static int comes_back(component *c) {
    for (int waited = 0; waited < COMES_BACK_WITHIN; waited += 2) {
        if (answers(c)) return 1;
        usleep(2000);
    }
    return 0;
}

component *component_open(const char *folder) {
    component *c = (component *)calloc(1, sizeof *c);
    if (!c) return NULL;
    snprintf(c->folder, sizeof c->folder, "%s", folder);
    return servers_begin(folder, getenv("CONTROL")) && storage_open(folder, SESSION) && comes_back(c) ? c : NULL;
}

/* Its incarnations may begin anew. */
int component_begin(component *c, uint64_t session, uint64_t former) {
    if (!storage_begin(0, session, former)) return 0;
    if (former) __atomic_store_n(&c->incarnation, 0, __ATOMIC_SEQ_CST);
    return 1;
}

void component_close(component *c) {
    const char *removed[] = {"rm", "-rf", c->folder, NULL};
    servers_end();
    process_runs(removed, "/dev/null", NULL);
    free(c);
}

mz_carried component_carry_many(component *c, const mz_wire *wires, size_t count, mz_reply *replies, mz_news *news) {
    uint64_t known = __atomic_load_n(&c->incarnation, __ATOMIC_SEQ_CST), wanted = wires->incarnation;
    while (wanted > known && !__atomic_compare_exchange_n(&c->incarnation, &known, wanted, 0, __ATOMIC_SEQ_CST, __ATOMIC_SEQ_CST))
        continue;
    mz_carried carried = mz_carry_batch(storage_components, wires, count, replies, news);
    __atomic_add_fetch(&c->answered, carried == MZ_REPLIED, __ATOMIC_SEQ_CST);
    return carried;
}

mz_carried component_carry(component *c, const mz_wire *wire, mz_reply *reply, mz_news *news) {
    return component_carry_many(c, wire, 1, reply, news);
}

int component_checkpoint(component *c) { return storage_keep(0, c->incarnation, 0); }

/* It is waited for, since it is killed more often than a server can start; and spared until it has done something that
 * can be lost, which takes a while on a busy machine. */
int component_kill(component *c, int loses) {
    if (__atomic_load_n(&c->answered, __ATOMIC_SEQ_CST) < BETWEEN_KILLS) return 1;
    __atomic_store_n(&c->answered, 0, __ATOMIC_SEQ_CST);
    if (loses) servers_lose(0);
    else servers_kill(0, c->kills++);
    return comes_back(c);
}

void component_fill(component *c, int full) {
    (void)c;
    storage_fill(0, full);
}
