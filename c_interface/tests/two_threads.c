/* Two threads without a lock on one handle, with MZ_DEBUG: it has to say so and abort. With an argument they take
 * a lock, and it ends with 0. */
#define MZ_DEBUG
#include "mazzulpe.h"
#include <pthread.h>

static mz_tc *tc;
static pthread_mutex_t lock = PTHREAD_MUTEX_INITIALIZER;
static int locked;

static void *calls(void *context) {
    for (int i = 0; i < 10000000 / (locked ? 100 : 1); i++) {
        if (locked) pthread_mutex_lock(&lock);
        (void)mz_log_length(tc);
        if (locked) pthread_mutex_unlock(&lock);
    }
    return context;
}

int main(int count, char **words) {
    (void)words;
    mz_code code;
    pthread_t other;
    locked = count > 1;
    tc = mz_tc_new(1, &code);
    if (!tc || pthread_create(&other, NULL, calls, NULL)) return 2;
    calls(NULL);
    pthread_join(other, NULL);
    mz_tc_free(tc);
    return 0;
}
