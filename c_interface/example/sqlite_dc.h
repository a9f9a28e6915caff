/* A data component over a SQLite file: a row of `records` for each record, and a row of `performed` for
 * each number that may come again, written in one SQLite transaction. So a number is performed once,
 * whatever is lost, repeated or killed.
 *
 * Beside it stands FILE.reserve, a megabyte that is given back to the disk where what undoes or is redone finds no room. As long
 * as it can't be made again other wires aren't performed. */
#ifndef SQLITE_DC_H
#define SQLITE_DC_H

#include "mazzulpe_batch.h"
#include <sqlite3.h>

typedef struct sqlite_dc sqlite_dc;

/* When a wire is on disk: whenever the system likes; before it is answered; or, in order, with sqlite_dc_keep. */
typedef enum { SQLITE_DC_LATER, SQLITE_DC_AT_ONCE, SQLITE_DC_AT_KEEP } sqlite_dc_durable;

/* Opens or makes the file. A new one serves this session, or none where it is 0: mz_session of the transaction component. One
 * that serves another goes on to do so. NULL where SQLite refuses. */
sqlite_dc *sqlite_dc_open(const char *path, uint64_t session, sqlite_dc_durable durable);
void sqlite_dc_close(sqlite_dc *dc);

/* Serves this session from now on, where it serves `former` or none: what was performed for that one is forgotten, whose numbers
 * begin with 1 too, and it never comes back. So ask for it where the former log is lost or was ended, with nothing open. 1 also
 * where it is served already. 0, and nothing has changed: another one is served, this one has ended, or SQLite failed. */
int sqlite_dc_begin(sqlite_dc *dc, uint64_t session, uint64_t former);

/* No wire but what undoes or is redone takes the file beyond so many pages, and those no more than 64 beyond. 0: no limit. */
void sqlite_dc_limit(sqlite_dc *dc, uint64_t pages);

/* How many pages the file has. */
uint64_t sqlite_dc_pages(sqlite_dc *dc);

/* Hears a low-water mark, under which nothing is open, and brings all to the disk, with it. 0 where SQLite failed. */
int sqlite_dc_keep(sqlite_dc *dc, uint64_t mark);

/* The file was put back from a copy: it has lost what came after. It is another incarnation from now on,
 * whose number has to be above all earlier ones (mz_site says the one that is known). *news are for
 * mz_told. 0 where SQLite failed. */
int sqlite_dc_put_back(sqlite_dc *dc, uint64_t incarnation, mz_news *news);

/* MZ_REPLIED and the reply; MZ_RESTARTED and the news, where the wire is for an earlier incarnation, and MZ_RETIRED where it is
 * of a session that isn't served: nothing is done; MZ_LOST where SQLite failed, as for want of room: nothing was done, and
 * the wire may be sent again. */
mz_carried sqlite_dc_perform(sqlite_dc *dc, const mz_wire *wire, mz_reply *reply, mz_news *news);

/* A batch (mazzulpe_batch.h), in one SQLite transaction: what sqlite_dc_perform answers, of all. MZ_REPLIED: replies[i] to wires[i]. */
mz_carried sqlite_dc_perform_many(sqlite_dc *dc, const mz_wire *wires, size_t count, mz_reply *replies, mz_news *news);

/* For mz_carry_batches. */
mz_batched sqlite_dc_batched(sqlite_dc *dc);

/* A copy of the file as it stands. 0 where SQLite failed. */
int sqlite_dc_copy(sqlite_dc *dc, const char *path);

/* The value of a record: 1, or 0 where there is none, or -1. The record's dc isn't looked at. */
int sqlite_dc_get(sqlite_dc *dc, const mz_record *record, uint8_t value[MZ_VALUE]);

/* The sum of the first eight bytes of all records, or -1. */
int64_t sqlite_dc_sum(sqlite_dc *dc);

/* For a control: from now on it performs a number again that it has performed. */
void sqlite_dc_forget_answers(sqlite_dc *dc);

#endif
