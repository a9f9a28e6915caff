/* An engine that may be killed at any moment, over servers that may be as well (storage.h): threads move amounts between
 * accounts at two data components. Its log is in a file (mazzulpe_log.h) before a wire is carried and before anybody is told
 * how a call ended, and it comes back from that. Where nobody answers it waits, and gives nothing up.
 *
 * Thread t takes 1 from account t at data component 0 by each transfer, so what is gone there is how many it has made. */
#ifndef CLIENT_H
#define CLIENT_H

#include "mazzulpe_log.h"

enum { THREADS = 512, SUPERSEDED = 7 };

/* What lives of a client and their parent share. */
typedef struct {
    volatile uint64_t told[THREADS]; /* transfers of which the thread was told that they committed */
    volatile uint64_t checkpoints, came_back, restarts, redone;
    volatile uint64_t longest, took; /* a call; the transfers of the last life: in microseconds */
    volatile int opened, keeps, last; /* keeps: storage is being told a mark; last: it ends once it has made `transfers` more */
} seen;

/* Where its log is, if that isn't the file FOLDER/log, and what else is done as it lives (node.c). */
typedef struct {
    mz_code (*open)(mz_tc *tc, mz_log **log, mz_log_found *found);
    void (*carries)(const mz_wire *wire); /* before each wire is carried, without the lock */
    void (*tells)(void);                  /* somebody was told that a transfer committed */
    void (*superseded)(void);             /* the log takes no more of what it appends; it doesn't return */
} log_home;

typedef struct {
    const char *object, *folder;
    uint64_t threads, transfers, between; /* a checkpoint behind each `between` transfers; 0: none */
    int unwritten; /* a control: the log is written before anybody is told, and not before a wire is carried */
    int marks_first; /* a control: storage is told a mark before the log has all that it counts */
    const log_home *home; /* or NULL */
    int losing;    /* each sixteenth reply is lost on its way */
    int synced;    /* what is written ahead is on the disk */
    seen *seen;
} plan;

/* A life, until it has made what it has to. Its status: 0, or 3 where the accounts aren't right. Where its log has a home of its own, others
 * may tell beside it: then the accounts are for client_check. */
int client_live(const plan *p);

/* Comes back, and says whether the accounts are right, where each thread may have made so many transfers more than
 * were told; and whether each balance is what the log, with what was cut off, says was written there last. Its status
 * as client_live's. */
int client_check(const plan *p, uint64_t untold);

uint64_t transfers_told(const plan *p);

#endif
