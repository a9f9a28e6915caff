/* The log of a transaction component in an etcd cluster (3.4 or later): a device of mz_log_take_over that outlives
 * the machine.
 *
 *     etcd_log *home = etcd_log_open("10.0.0.1:2379,10.0.0.2:2379,10.0.0.3:2379", "bank", 400);
 *     etcd_log_await(home);                                       a standby waits here until whoever writes is silent
 *     mz_device device = etcd_log_device(home);
 *     mz_log_take_over(tc, &device, etcd_log_read, &log, NULL);   after the procedures are loaded
 *
 * From then on etcd_log_beat tells the standbys that this one lives. Each append is one etcd transaction, which
 * compares the epoch and the end of the log: it is done where both are as this one knows them, and refused for ever
 * else. So whoever was superseded appends nothing more, however long it was stopped, and no clock matters: being
 * silent costs the epoch, and never a record.
 *
 *   NAME/epoch       drawn by whoever took it; its modification revision, which etcd hands out, is the epoch
 *   NAME/beat        changes while the one that writes lives
 *   NAME/session     mz_session; it begins with the end
 *   NAME/end         the numbers of the first chunk and of the next one, 16 hex digits each
 *   NAME/c/NUMBER    a chunk: the epoch in which it was written, 16 hex digits, and bytes of the log
 *
 * A chunk says in which epoch it was written, so a writer whose reply was lost knows its own. More bytes than one
 * etcd transaction takes go out as several chunks, and the last one moves the end over all. A log that is cut takes
 * the place of all chunks in one transaction, and the history before it is compacted: give it a cluster that nothing
 * else needs old revisions of.
 *
 * Without a majority an append waits for a minute, and then fails. So it does at once where etcd refuses, as above
 * its quota (--quota-backend-bytes), which is named on standard error; nobody takes over until there is room, and the
 * alarm is disarmed. */
#ifndef ETCD_LOG_H
#define ETCD_LOG_H

#include "mazzulpe_log.h"

typedef struct etcd_log etcd_log;

/* For the cluster of these members, "host:port,.."; `name` is of at most 32 letters. Who beats less than once in `silence` milliseconds is
 * taken over from. It connects when it has to, and to the next member where one doesn't answer. NULL: no memory, or no such name. */
etcd_log *etcd_log_open(const char *members, const char *name, unsigned silence);

/* Waits until the one that writes has been silent, and takes the epoch. 1: it is ours; 0: there is no entropy to draw from. */
int etcd_log_await(etcd_log *log);

/* Once the epoch is ours, by one thread, several times within `silence`. 0: another has taken it; the log says so too. */
int etcd_log_beat(etcd_log *log);

uint64_t etcd_log_epoch(const etcd_log *log);

/* Its close is etcd_log_close. */
mz_device etcd_log_device(etcd_log *log);

/* For mz_log_take_over, with the log as its context. MZ_LOG_FAILED: also where the epoch is another's by now;
 * MZ_DAMAGED: a chunk, the session or the end is missing, or a chunk is none; MZ_MEMORY. */
mz_code etcd_log_read(void *log, uint8_t **bytes, size_t *count, uint64_t *session);

void etcd_log_close(void *log);

#endif
