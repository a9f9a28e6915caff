/* The storage of online.c over two SQLite files. They outlive the engine, and lose nothing that was answered. */
#include "online.h"
#include "sqlite_dc.h"
#include <pthread.h>
#include <stdio.h>

static sqlite_dc *files[DCS];
static pthread_mutex_t locks[DCS] = {PTHREAD_MUTEX_INITIALIZER, PTHREAD_MUTEX_INITIALIZER};

int storage_open(const char *folder, void **image, size_t *bytes) {
    char path[512];
    *image = NULL;
    *bytes = 0;
    for (int d = 0; d < DCS; d++) {
        snprintf(path, sizeof path, "%s/%d.db", folder, d);
        files[d] = sqlite_dc_open(path, SESSION, SQLITE_DC_AT_KEEP);
        if (!files[d]) return 0;
    }
    return 1;
}

/* It is up, as it was. */
mz_note storage_note(uint16_t dc) {
    (void)dc;
    return (mz_note){0, 0, 0};
}

mz_carried storage_carry(const mz_wire *wire, mz_reply *reply, mz_news *news) {
    uint16_t d = wire->record.dc;
    pthread_mutex_lock(&locks[d]);
    mz_carried carried = sqlite_dc_perform(files[d], wire, reply, news);
    pthread_mutex_unlock(&locks[d]);
    return carried;
}

int storage_keep(uint64_t mark) {
    int kept = 1;
    for (int d = 0; d < DCS; d++) {
        pthread_mutex_lock(&locks[d]);
        kept = kept && sqlite_dc_keep(files[d], mark);
        pthread_mutex_unlock(&locks[d]);
    }
    return kept;
}

int storage_balance(uint16_t dc, uint64_t account, uint64_t *balance) {
    mz_record record = {dc, 0, account};
    uint8_t value[MZ_VALUE] = {0};
    int there = sqlite_dc_get(files[dc], &record, value) == 1;
    *balance = mz_little(value, 8);
    return there;
}
