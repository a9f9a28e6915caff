/* The storage of online.c in memory: two arrays. It dies with the engine, which keeps its image at a checkpoint. */
#include "online.h"
#include "array_dc.h"
#include <pthread.h>

static array_image images[DCS];
static array_dc dcs[DCS];
static pthread_mutex_t locks[DCS] = {PTHREAD_MUTEX_INITIALIZER, PTHREAD_MUTEX_INITIALIZER};

int storage_open(const char *folder, void **image, size_t *bytes) {
    (void)folder;
    *image = images;
    *bytes = sizeof images;
    for (int d = 0; d < DCS; d++) {
        dcs[d].now = &images[d];
        dcs[d].incarnation = 1;
    }
    return 1;
}

/* It has lost what came behind its image. */
mz_note storage_note(uint16_t dc) { return (mz_note){1, images[dc].mark, 1}; }

mz_carried storage_carry(const mz_wire *wire, mz_reply *reply, mz_news *news) {
    uint16_t d = wire->record.dc;
    (void)news;
    pthread_mutex_lock(&locks[d]);
    mz_carried carried = array_perform(&dcs[d], wire, reply);
    pthread_mutex_unlock(&locks[d]);
    return carried;
}

int storage_keep(uint64_t mark) {
    for (int d = 0; d < DCS; d++) {
        pthread_mutex_lock(&locks[d]);
        if (mark > images[d].mark) images[d].mark = mark;
        pthread_mutex_unlock(&locks[d]);
    }
    return 1;
}

int storage_balance(uint16_t dc, uint64_t account, uint64_t *balance) {
    *balance = mz_little(images[dc].accounts[account].value, 8);
    return images[dc].accounts[account].there;
}
