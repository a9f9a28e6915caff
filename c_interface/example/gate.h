/* An admission gate, so that the log begins anew while an engine's threads go on: who wants to admit waits for what is
 * open when a checkpoint is wanted, and for the checkpoint, and for nothing else. It shares the lock of the transaction
 * component: each function is called under it, and those that wait let it go meanwhile. It is POSIX of 2008.
 *
 *     a call        gate_pass, mz_admit, mz_run, gate_ended; or gate_strands where it is given up or stuck
 *     a checkpoint  gate_close; behind MZ_OK the storage keeps mz_low_water, mz_checkpoint, gate_open */
#ifndef GATE_H
#define GATE_H

#include "mazzulpe.h"
#include <errno.h>
#include <pthread.h>
#include <time.h>

typedef struct {
    pthread_mutex_t *lock;
    pthread_cond_t ended;  /* a transaction has ended, or is in doubt or stuck from now on */
    pthread_cond_t opened;
    int closed;            /* a checkpoint is wanted, or being made */
    uint64_t stranded;     /* so many are in doubt or stuck */
} gate;

/* 0, or why a condition variable couldn't be made. */
static inline int gate_new(gate *g, pthread_mutex_t *lock) {
    pthread_condattr_t steady;
    g->lock = lock;
    g->closed = 0;
    g->stranded = 0;
    int failed = pthread_condattr_init(&steady);
    if (!failed) failed = pthread_condattr_setclock(&steady, CLOCK_MONOTONIC);
    if (!failed) failed = pthread_cond_init(&g->ended, &steady);
    return failed ? failed : pthread_cond_init(&g->opened, NULL);
}

/* Before mz_admit, each time: waits while a checkpoint is wanted. */
static inline void gate_pass(gate *g) {
    while (g->closed) pthread_cond_wait(&g->opened, g->lock);
}

/* Behind each mz_end. Who has to wait behind MZ_BUSY waits for `ended` too. */
static inline void gate_ended(gate *g) { pthread_cond_broadcast(&g->ended); }

/* Behind mz_give_up, and once where mz_run says MZ_STUCK: it bars checkpoints, until one that was given up is taken up. */
static inline void gate_strands(gate *g) {
    g->stranded++;
    pthread_cond_broadcast(&g->ended);
}

/* Behind mz_retake of one that was given up. */
static inline void gate_retakes(gate *g) { g->stranded--; }

/* Admissions go on. */
static inline void gate_open(gate *g) {
    g->closed = 0;
    pthread_cond_broadcast(&g->opened);
}

/* The first that is in doubt or stuck, else the oldest. It goes through the log, so nobody looks who needn't. */
static inline void gate_bar(mz_tc *tc, mz_open *by) {
    for (uint64_t place = 0; mz_open_from(tc, place, by) == MZ_OK; place = by->place + 1)
        if (by->stranded) return;
    (void)mz_open_from(tc, 0, by);
}

/* Closes it and waits for what is open, for so many milliseconds at most. MZ_OK: nothing is open, and nothing is admitted
 * until gate_open. Else admissions go on: MZ_TXNS_OPEN, *by is in doubt or stuck, or the oldest that hasn't ended in
 * time; MZ_ONE_DOWN, a data component is down. One checkpoint is made at a time, by a thread with nothing open. */
static inline mz_code gate_close(gate *g, mz_tc *tc, long milliseconds, mz_open *by) {
    struct timespec until;
    int down = 0, late = 0;
    gate_pass(g);
    for (uint32_t dc = 0; dc < UINT16_MAX && mz_site(tc, (uint16_t)dc, NULL, &down) == MZ_OK; dc++)
        if (down) return MZ_ONE_DOWN;
    clock_gettime(CLOCK_MONOTONIC, &until);
    until.tv_nsec += milliseconds % 1000 * 1000000;
    until.tv_sec += milliseconds / 1000 + until.tv_nsec / 1000000000;
    until.tv_nsec %= 1000000000;
    g->closed = 1;
    while (mz_open_count(tc)) {
        if (g->stranded || late) {
            gate_open(g);
            gate_bar(tc, by);
            return MZ_TXNS_OPEN;
        }
        late = pthread_cond_timedwait(&g->ended, g->lock, &until) == ETIMEDOUT;
    }
    return MZ_OK;
}

#endif
