/* A data component over an etcd cluster (3.4 or later): one etcd transaction a wire, or a batch, which every member agrees on before it is
 * answered. A cluster replicates and doesn't grow: data that outgrow one take a further one, as a further data component.
 *
 *   component   the session and the incarnation, 16 hex digits each, and the cluster's id
 *   mark        the low-water mark, 16 hex digits
 *   r/TTTT/KKKKKKKKKKKKKKKK   a record
 *   p/NNNNNNNNNNNNNNNN        what was answered to number N: a digit, by mz_said
 *   ended/SSSSSSSSSSSSSSSS    a session that has ended
 *
 * A former value isn't kept under its number: etcd keeps what was, and the value is the record's at the revision before the
 * one in which the number was put. What is older than each kept number is given up (compaction).
 *
 * Above its quota (--quota-backend-bytes) etcd refuses what undoes as well, until it is given more: etcd_dc_quota keeps a reserve.
 *
 * A cluster that is restored from a snapshot has another id, so it is another incarnation, and tells. Give each restore
 * an --initial-cluster-token of its own: with the same members and token the id is the same, and nobody is told. */
#ifndef ETCD_DC_H
#define ETCD_DC_H

#include "mazzulpe_batch.h"

typedef struct etcd_dc etcd_dc;

/* For the cluster of these members, "host:port,..". It connects with the first wire, and to the next member where one
 * doesn't answer. `session`, mz_session of the transaction component, is served then if none is; 0: none begins. Several threads
 * may use it at once. NULL: no memory. */
etcd_dc *etcd_dc_open(const char *members, uint64_t session);
void etcd_dc_close(etcd_dc *dc);

/* Serves this session from now on, where it serves `former` or none: what was performed for that one is forgotten, and it never
 * comes back. So ask for it where the former log is lost or was ended, with nothing open. 0, and nothing has changed: another
 * one is served, this one has ended, or nobody answered. Nothing is carried meanwhile. */
int etcd_dc_begin(etcd_dc *dc, uint64_t session, uint64_t former);

/* MZ_REPLIED and the reply; MZ_RESTARTED and the news, where the wire is for another incarnation, and MZ_RETIRED where it is of
 * a session that isn't served: nothing is done; MZ_LOST where nobody answered, as without a majority or within 3 seconds, or etcd refused, which is
 * named on standard error: send the wire again. */
mz_carried etcd_dc_perform(etcd_dc *dc, const mz_wire *wire, mz_reply *reply, mz_news *news);

/* A batch (mazzulpe_batch.h) of at most 120 wires, in one etcd transaction: what etcd_dc_perform answers, of all. MZ_REPLIED:
 * replies[i] to wires[i]. */
mz_carried etcd_dc_perform_many(etcd_dc *dc, const mz_wire *wires, size_t count, mz_reply *replies, mz_news *news);

/* For mz_carry_batches. */
mz_batched etcd_dc_batched(etcd_dc *dc);

/* The members' quota: from now on no wire but what undoes or is redone is performed where less than 64 MB of it are left, as seen
 * once a second, and less than 32 MB of the database are free. 0: no reserve. */
void etcd_dc_quota(etcd_dc *dc, uint64_t bytes);

/* Hears a low-water mark, under which nothing is open. 0 where nobody answered, or it isn't this incarnation any more. What
 * was answered is kept by a majority anyway. Where clusters are restored from snapshots, the log may begin anew behind: this,
 * a snapshot, the snapshot in its place, and this again, so that it is one of this incarnation. */
int etcd_dc_keep(etcd_dc *dc, uint64_t incarnation, uint64_t mark);

#endif
