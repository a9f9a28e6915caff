/* What an engine that people run does by itself, beside which figures.c counts: transfers between two accounts, each a transaction of its
 * own. alone_postgres.c, alone_sqlite.c and alone_etcd.c give it. */
#ifndef ALONE_H
#define ALONE_H

#include <stdint.h>

#define ACCOUNTS 20000
#define ALONE_TEXT_OF(number) #number
#define ALONE_TEXT(number) ALONE_TEXT_OF(number) /* as a part of SQL */

typedef struct {
    const char *name;
    /* Once, at a storage in this folder: its accounts, 0 to ACCOUNTS - 1, of 1,000,000 each. `synced`: a transfer is on the disk before it is
     * over. 0 where that fails. */
    int (*begin)(const char *folder, int synced);
    void *(*connected)(const char *folder, int synced);
    /* Takes 1 from the source and gives it to the target. 0: it failed. */
    int (*transfer)(void *connection, uint64_t source, uint64_t target);
    void (*disconnect)(void *connection);
} alone_way;

/* Ended by one without a name. */
extern const alone_way alone_ways[];

#endif
