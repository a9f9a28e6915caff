/* What node.c, failover.c and tried_home.c want of where a log lives: etcd_home.c and postgres_home.c give it. */
#ifndef HOME_H
#define HOME_H

#include "mazzulpe_log.h"

enum { HOMES = 3 }; /* members */

/* ---- the way to it, of a node */

/* Whoever is silent for so many milliseconds is taken over from. NULL: no memory. The members may be down. */
void *home_open(unsigned silence);

/* Waits until the one that writes has been silent, and takes the epoch. 0: that isn't possible. */
int home_await(void *home);

/* One is alive that has the epoch. 0: another has it. */
int home_beat(void *home);

/* Its close is home_close. */
mz_device home_device(void *home);
mz_code home_read(void *home, uint8_t **bytes, size_t *count, uint64_t *session); /* of mz_log_take_over */
void home_close(void *home);

/* What whoever has a way in does to it: a byte of a chunk is another, or a chunk, the epoch or what says where the
 * log ends is gone. */
typedef enum { BYTE, CHUNK_GONE, EPOCH_GONE, END_GONE } home_damages;

/* 0 where that can't be alone. */
int home_damage(home_damages what);

/* ---- its members, of the parent */

/* Makes them in this folder, starts them, and waits until they answer. 0 where that fails. */
int home_begin(const char *folder);

/* Ends one by SIGKILL; starts it again. */
void home_kill(int member);
void home_start(int member);

/* They start again, and have room for no more than a few chunks, or as much as there is. What an append that there is
 * no room for is refused with, which is named on standard error. */
const char *home_limit(int is_limited);

/* The members that don't take writes are cut off from the one that does, which stays as it is. One of them takes
 * writes then. 0 where that can't be, as where they do so by themselves. */
int home_promote(void);

#endif
