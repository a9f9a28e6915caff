/* A data component over a PostgreSQL database (13 or later): a row of mz.records for each record, and what was answered to each
 * number that may come again, a row of mz.performed for one that came alone, and one of mz.kept for a batch; written by one function
 * call, which is one transaction. So a number is performed once, whatever is lost, repeated or killed. Batches of one database go one
 * after the other. Records may be read by SQL, with what open transactions
 * have written so far: select key, mz.word(value, 0) from mz.records where tab = 0.
 *
 * The commit is asynchronous, unless it is asked for at once: a server that crashes loses its last ones. So does one whose
 * backend is killed, while its start time stays. mz.alive is an unlogged table, which PostgreSQL empties whenever it
 * recovers, of a killed backend too. Where it is empty, what is answered next is news of another incarnation.
 *
 * The table mz.reserve is a megabyte that is given back to the disk where what undoes or is redone finds no room. As long as it
 * can't be made again other wires aren't performed.
 *
 * Where a copy of a server that was shut down is put back by hand, mz.alive is as it was: delete from mz.alive, before the
 * first wire. A base backup and a promoted replica need nothing, nor does a dump with --no-unlogged-table-data. */
#ifndef POSTGRES_DC_H
#define POSTGRES_DC_H

#include "mazzulpe_batch.h"

typedef struct postgres_dc postgres_dc;

/* When a wire is on disk: a moment later, by the server's wal_writer_delay; or before it is answered. */
typedef enum { POSTGRES_DC_LATER, POSTGRES_DC_AT_ONCE } postgres_dc_durable;

/* For the database of these connection words of libpq. It connects with the first wire, and anew where it has to, and
 * makes its tables where there are none. `session`, mz_session of the transaction component, is served then if none is; 0: none
 * begins.
 * Several threads may use it at once. NULL: no memory. Where the way to the server may break without a word, give
 * tcp_user_timeout and connect_timeout among the words. */
postgres_dc *postgres_dc_open(const char *words, uint64_t session, postgres_dc_durable durable);
void postgres_dc_close(postgres_dc *dc);

/* Serves this session from now on, where it serves `former` or none: what was performed for that one is forgotten, and it never
 * comes back. So ask for it where the former log is lost or was ended, with nothing open. 0, and nothing has changed: another
 * one is served, this one has ended, or nobody answered. Nothing is carried meanwhile. */
int postgres_dc_begin(postgres_dc *dc, uint64_t session, uint64_t former);

/* MZ_REPLIED and the reply; MZ_RESTARTED and the news, where the wire is for another incarnation, and MZ_RETIRED where it is of
 * a session that isn't served: nothing is done; MZ_LOST where nobody answered or PostgreSQL refused, as with a full disk: send the
 * wire again. What it refuses it names on standard error once a minute, and rests. */
mz_carried postgres_dc_perform(postgres_dc *dc, const mz_wire *wire, mz_reply *reply, mz_news *news);

/* A batch (mazzulpe_batch.h), in one statement: what postgres_dc_perform answers, of all. MZ_REPLIED: replies[i] to wires[i]. */
mz_carried postgres_dc_perform_many(postgres_dc *dc, const mz_wire *wires, size_t count, mz_reply *replies, mz_news *news);

/* The same in two steps, so that others are asked meanwhile: what is sent has to be received, by the same connection, which is
 * what postgres_dc_send answers; negative: nothing was sent. */
int postgres_dc_send(postgres_dc *dc, const mz_wire *wires, size_t count);
mz_carried postgres_dc_receive(postgres_dc *dc, int sent, const mz_wire *wires, size_t count, mz_reply *replies, mz_news *news);

/* For mz_carry_batches. */
mz_batched postgres_dc_batched(postgres_dc *dc);

/* Hears a low-water mark, under which nothing is open, and brings all to the disk, with it. 0 where nobody answered, or
 * it isn't this incarnation any more: then it is to be redone first. */
int postgres_dc_keep(postgres_dc *dc, uint64_t incarnation, uint64_t mark);

/* Executes statements of SQL. 0 where that failed. */
int postgres_dc_execute(postgres_dc *dc, const char *sql);

#endif
