/* A node of an engine whose log outlives its machine: one program that is leader or standby. It waits until whoever leads is silent,
 * takes over from the log's home (home.h), and lives as a client (client.h) does, until its log takes no more of what it appends. */
#ifndef NODE_H
#define NODE_H

#include "client.h"

enum { NODES = 3, MOST_REIGNS = 4096 };

/* Of a reign: who, when the epoch was taken, and when the first transfer was told; in microseconds. */
typedef struct { int node; volatile uint64_t took, first; } reign;

/* What the nodes and their parent share. */
typedef struct {
    seen client;
    uint64_t reigns, zombies, repeated, late; /* `repeated`: replies that zombies got to what they sent again */
    volatile int is_mute[NODES];              /* its beats stop, and it goes on */
    reign of[MOST_REIGNS];
} shared;

typedef struct {
    plan client;
    unsigned silence; /* milliseconds */
    shared *seen;
} node_plan;

/* Waits, takes over and lives. Its status: 0, SUPERSEDED, or as client_live's. */
int node_live(const node_plan *p, int node);

/* Takes over, with nobody beside, and says whether all is right, as client_check. The log that it found is in FOLDER/log then. */
int node_check(const node_plan *p);

uint64_t node_now(void);

#endif
