/* Connections of several threads to one server: each call takes a free one, and waits for one where none is. */
#ifndef PLACES_H
#define PLACES_H

#include <pthread.h>

enum { PLACES = 16 };

typedef struct {
    pthread_mutex_t lock;
    pthread_cond_t given;
    unsigned taken; /* a bit for each place */
} places;

static inline void places_new(places *p) {
    pthread_mutex_init(&p->lock, NULL);
    pthread_cond_init(&p->given, NULL);
    p->taken = 0;
}

static inline int place_take(places *p) {
    int place = 0;
    pthread_mutex_lock(&p->lock);
    while (p->taken == (1u << PLACES) - 1) pthread_cond_wait(&p->given, &p->lock);
    while (p->taken >> place & 1) place++;
    p->taken |= 1u << place;
    pthread_mutex_unlock(&p->lock);
    return place;
}

static inline void place_give(places *p, int place) {
    pthread_mutex_lock(&p->lock);
    p->taken &= ~(1u << place);
    pthread_cond_signal(&p->given);
    pthread_mutex_unlock(&p->lock);
}

#endif
