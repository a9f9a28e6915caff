/* What client.c, killed_bank.c and tried_storage.c want of an engine that people run: postgres_storage.c, etcd_storage.c
 * and sqlite_storage.c give it. */
#ifndef STORAGE_H
#define STORAGE_H

#include "mazzulpe_batch.h"

enum { DCS = 2, SESSION = 1 }; /* SESSION: of whoever has no log */

/* ---- the way to its servers, of the client */

/* `session` names the transaction component: with the first wire it begins where none is served; 0: none begins. 0 where there is no
 * memory. The servers may be down. */
int storage_open(const char *folder, uint64_t session);

/* The way to each data component, once storage_open was called, for several threads at once. */
extern mz_batched storage_components[DCS];

/* Carries a wire. */
static inline mz_carried storage_carry(const mz_wire *wire, mz_reply *reply, mz_news *news) {
    return mz_carry_batch(&storage_components[wire->record.dc], wire, 1, reply, news);
}

/* An mz_carry_many, without a context. */
static inline void storage_carry_many(void *context, const mz_wire *wires, size_t count, mz_carried *carried, mz_reply *replies,
                                      mz_news *news) {
    static _Thread_local mz_batches room;
    (void)context;
    room.components = storage_components;
    room.count = DCS;
    mz_carry_batches(&room, wires, count, carried, replies, news);
}

/* Begins a session at a data component, as component_begin of component.h. */
int storage_begin(uint16_t dc, uint64_t session, uint64_t former);

/* Makes all that a data component has done durable, with this low-water mark, for good. 0 where nobody answered, or it isn't
 * this incarnation any more. */
int storage_keep(uint16_t dc, uint64_t incarnation, uint64_t mark);

/* ---- its servers, of the parent */

/* From now on, or with 0 no more, this data component has no room for a further operation; the reserve of its own aside. */
void storage_fill(uint16_t dc, int full);

/* Within so many microseconds one is killed. */
extern const unsigned servers_live;

/* 1: what they write is synced to the disk; 0: it outlives a kill, and not a loss of power. To be set before servers_begin. */
extern int servers_synced;

/* Makes them in this folder, starts them, and waits until they answer. `control`: NULL, or the name of what is made wrong there.
 * 0, with the reason on standard error, where that fails. */
int servers_begin(const char *folder, const char *control);

/* Ends one of a data component by SIGKILL, and starts it again. How many were killed. */
unsigned servers_kill(uint16_t dc, unsigned drawn);

/* Ends those of a data component by SIGKILL; what came behind its last storage_keep is lost, or so much of it as may be; and
 * starts them. */
unsigned servers_lose(uint16_t dc);

/* Ends them all by SIGKILL; and starts them. */
void servers_end(void);
void servers_start(void);

#endif
