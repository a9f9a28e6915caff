/* What an engine refuses is named once a minute, however often it comes, and whoever gets it rests: else one fault is a loop at
 * full speed whose lines fill a disk. */
#ifndef FAULTS_H
#define FAULTS_H

#include <pthread.h>
#include <stdio.h>
#include <string.h>
#include <time.h>
#include <unistd.h>

enum { FAULT_REST = 10000, FAULT_NAMED_FOR = 60 };

typedef struct { pthread_mutex_t lock; char last[100]; time_t named; } faults;

static inline void fault_seen(faults *f, const char *engine, const char *what) {
    pthread_mutex_lock(&f->lock);
    time_t now = time(NULL);
    if (strncmp(f->last, what, sizeof f->last - 1) || difftime(now, f->named) >= FAULT_NAMED_FOR) {
        fprintf(stderr, "%s: %.200s\n", engine, what);
        memset(f->last, 0, sizeof f->last);
        memcpy(f->last, what, strnlen(what, sizeof f->last - 1));
        f->named = now;
    }
    pthread_mutex_unlock(&f->lock);
    usleep(FAULT_REST);
}

#endif
