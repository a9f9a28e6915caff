/* What `make try_component COMPONENT="my.c .." COMPONENT_LIBS=".."` wants of a data component of one's own
 * (docs/COMPONENTS.md): these functions, over an engine of yours or a process that it talks to. component.c
 * gives them over memory, sqlite_component.c over a SQLite file. */
#ifndef MZ_COMPONENT_H
#define MZ_COMPONENT_H

#include "mazzulpe_batch.h"

typedef struct component component;

/* A component without records, in this folder, which is there and empty; it serves no session yet. NULL where that fails. */
component *component_open(const char *folder);
void component_close(component *c);

/* Begins a session, for good before it answers 1, where none was begun, or the one that is served is `former`: its numbers
 * and its mark are forgotten, its records stay, and it never comes back. The one that is served begins once more, and
 * nothing changes. 0, and nothing has changed: it serves another than `former`, or this session has ended. Nothing is
 * carried meanwhile. */
int component_begin(component *c, uint64_t session, uint64_t former);

/* Carries a wire, from several threads at once: MZ_REPLIED and the reply; MZ_RESTARTED and the news, where
 * the wire is for another incarnation; MZ_RETIRED where it is of another session than the one that is served; MZ_LOST where
 * nothing comes back. */
mz_carried component_carry(component *c, const mz_wire *wire, mz_reply *reply, mz_news *news);

/* Where it takes batches; left out where it doesn't. Carries wires of one session and incarnation, at most MZ_BATCH, no number
 * twice, no two on one record of which one writes: as these one after the other, all of them or none, from several threads at
 * once, also beside component_carry. MZ_REPLIED, and replies[i] to wires[i]; else what component_carry would answer, of all. */
mz_carried component_carry_many(component *c, const mz_wire *wires, size_t count, mz_reply *replies, mz_news *news)
    __attribute__((weak));

/* Makes all that it has done durable, with its low-water mark. Nothing is carried meanwhile. */
int component_checkpoint(component *c);

/* Ends it as SIGKILL does, and starts it again. With `loses` what came behind the last checkpoint is gone, as
 * behind a loss of power, or where a copy is put back; if it can't lose anything, it does as without. Nothing
 * is carried meanwhile. 0 where it doesn't come back. */
int component_kill(component *c, int loses);

/* From now on, or with 0 no more, it has no room for a further operation, but for what undoes or is redone. What can't be
 * filled does nothing. Nothing is carried meanwhile. */
void component_fill(component *c, int full);

#endif
