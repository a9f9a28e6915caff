/* The log of a transaction component in a PostgreSQL database (13 or later) with synchronous standbys: a device of
 * mz_log_take_over that outlives the machine.
 *
 *     postgres_log *home = postgres_log_open("host=a,b,c dbname=bank target_session_attrs=read-write", "bank", 400);
 *     postgres_log_await(home);                                        a standby waits here until whoever writes is silent
 *     mz_device device = postgres_log_device(home);
 *     mz_log_take_over(tc, &device, postgres_log_read, &log, NULL);    after the procedures are loaded
 *
 * From then on postgres_log_beat says that this one lives. An append is one transaction: an update of the row in
 * mz_log.home where epoch and next chunk are as this one knows them, and an insert of the chunk. Where no row is so,
 * it is refused for ever: another has taken over, which is an update of that row as well. No clock matters: being
 * silent costs the epoch, and never a record.
 *
 * Set synchronous_standby_names, for each commit of which so many of the standbys that it names wait as K. Promote
 * one of them once all but K - 1 are cut off from the former primary, which then commits nothing more, and of those
 * the one that has the most WAL: what was answered is there. Each commit waits for them, as long as they are away. A
 * commit of which the server warns, or whose answer is lost, is confirmed by a further one before it counts. */
#ifndef POSTGRES_LOG_H
#define POSTGRES_LOG_H

#include "mazzulpe_log.h"

typedef struct postgres_log postgres_log;

/* For the database of these connection words of libpq; a database may have several logs, by name. Who beats less than once in `silence`
 * milliseconds is taken over from. It connects when it has to, and makes its tables where there are none. NULL: no memory. */
postgres_log *postgres_log_open(const char *words, const char *name, unsigned silence);

/* Waits until the one that writes has been silent, and takes the epoch. 1: it is ours; 0: there is no entropy to draw from. */
int postgres_log_await(postgres_log *log);

/* Once the epoch is ours, by one thread, several times within `silence`. 0: another has taken it; the log says so too. */
int postgres_log_beat(postgres_log *log);

uint64_t postgres_log_epoch(const postgres_log *log);

/* Its close is postgres_log_close. An append that fails, as with a full disk, names why on standard error. */
mz_device postgres_log_device(postgres_log *log);

/* For mz_log_take_over, with the log as its context. MZ_LOG_FAILED: also where the epoch is another's by now;
 * MZ_DAMAGED: a chunk, or the log's row, is missing; MZ_MEMORY. */
mz_code postgres_log_read(void *log, uint8_t **bytes, size_t *count, uint64_t *session);

void postgres_log_close(void *log);

#endif
