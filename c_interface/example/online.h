/* What online.c wants of its storage: online_memory.c gives it over arrays, online_sqlite.c over two SQLite files. */
#ifndef ONLINE_H
#define ONLINE_H

#include "mazzulpe.h"

enum { DCS = 2, SESSION = 1 };

/* Opens it in this folder, or makes it. *image is what the engine's file keeps of it, so many bytes: 0 of storage that
 * keeps itself. */
int storage_open(const char *folder, void **image, size_t *bytes);

/* What is known of a data component when the engine comes back, once the image was read. */
mz_note storage_note(uint16_t dc);

/* Carries a wire, from several threads at once. */
mz_carried storage_carry(const mz_wire *wire, mz_reply *reply, mz_news *news);

/* Makes all that it has done durable, but for the image, with this low-water mark. Wires may be carried meanwhile. */
int storage_keep(uint64_t mark);

/* 0 where there is no such account. */
int storage_balance(uint16_t dc, uint64_t account, uint64_t *balance);

#endif
