/* PostgreSQL servers as processes. PG_BIN is the folder of postgres and initdb. */
#ifndef POSTGRES_SERVER_H
#define POSTGRES_SERVER_H

#include "processes.h"
#include <sys/shm.h>
#include <sys/stat.h>

static inline const char *postgres_program(char *room, size_t bytes, const char *name) {
    const char *folder = getenv("PG_BIN");
    snprintf(room, bytes, "%s%s%s", folder ? folder : "", folder ? "/" : "", name);
    return room;
}

/* Processes of a server that was killed live on for a moment, and bar the next one: as long as they hold its memory. */
static inline void await_its_processes(const char *folder) {
    char path[400], line[200] = "";
    int key, id = -1;
    snprintf(path, sizeof path, "%s/postmaster.pid", folder);
    FILE *f = fopen(path, "r");
    for (int k = 0; f && k < 7 && fgets(line, sizeof line, f); k++) continue;
    if (f) fclose(f);
    if (sscanf(line, "%d %d", &key, &id) != 2) return;
    struct shmid_ds held;
    while (shmctl(id, IPC_STAT, &held) == 0 && held.shm_nattch > 0) usleep(2000);
}

#endif
