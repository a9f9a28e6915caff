/* An engine from an empty folder, over two SQLite files: `pool_sqlite FOLDER` opens accounts where there are none, and threads move
 * amounts between them by a pool. It may be killed at any moment, and goes on from its log. */
#define _GNU_SOURCE
#include "mazzulpe_pool.h"
#include "bank.h"
#include "sqlite_dc.h"

enum { THREADS = 16, TRANSFERS = 100, ACCOUNTS = 50, OPENING = 1000, CALLS_AT_ONCE = 64 };

static mz_pool *pool;

static int keep(void *files, uint16_t dc, uint64_t incarnation, uint64_t mark) {
    (void)incarnation;
    return sqlite_dc_keep(((sqlite_dc **)files)[dc], mark);
}

static void *transfers(void *number) {
    mz_receipt receipt;
    for (uint64_t turn = 0; turn < TRANSFERS; turn++)
        if (bank_move_call(pool, (uint64_t)(uintptr_t)number, turn * 7 % ACCOUNTS, 1, NULL, &receipt) != MZ_OK) exit(1);
    return NULL;
}

int main(int count, char **words) {
    mz_code c;
    mz_log *log;
    mz_tc *tc = mz_tc_new(bank_dcs, &c);
    sqlite_dc *files[bank_dcs];
    mz_batched components[bank_dcs];
    pthread_t threads[THREADS];
    mz_receipt receipt;
    bank_balances_held held;
    uint64_t sum = 0, came_back = 0;
    if (count != 2 || chdir(words[1]) || !tc || bank_open(tc) != MZ_OK || (c = mz_log_open(tc, "bank.log", &log, NULL)) != MZ_OK) return 1;
    for (int d = 0; d < bank_dcs; d++) {
        files[d] = sqlite_dc_open(d ? "there.db" : "here.db", mz_session(tc), SQLITE_DC_AT_KEEP);
        if (!files[d]) return 1;
        components[d] = sqlite_dc_batched(files[d]);
    }
    if (mz_pool_open_batched(tc, log, components, bank_dcs, CALLS_AT_ONCE, NULL, &pool) != MZ_OK) return 1;
    if (mz_pool_come_back(pool, &came_back) != MZ_OK) return 1;
    for (uint64_t a = 0; a < ACCOUNTS; a++) {
        if (bank_balances_call(pool, a, a, &held, &receipt) != MZ_OK) return 1;
        if (!held.here.there) bank_deposit_here_call(pool, a, OPENING, NULL, &receipt);
        if (!held.there.there) bank_deposit_there_call(pool, a, OPENING, NULL, &receipt);
    }
    for (uintptr_t t = 0; t < THREADS; t++)
        if (pthread_create(&threads[t], NULL, transfers, (void *)t)) return 1;
    for (int t = 0; t < THREADS; t++) pthread_join(threads[t], NULL);
    for (uint64_t a = 0; a < ACCOUNTS && bank_balances_call(pool, a, a, &held, &receipt) == MZ_OK; a++)
        sum += mz_little(held.here.value, 8) + mz_little(held.there.value, 8);
    c = mz_pool_checkpoint(pool, 1000, keep, files);
    printf("%s; came back: %llu, checkpoint: %s\n", sum == 2 * ACCOUNTS * OPENING ? "the sum stays" : "THE SUM IS WRONG", (unsigned long long)came_back, mz_code_text(c));
    mz_pool_print(pool, stderr);
    mz_pool_close(pool, 1000);
    for (int d = 0; d < bank_dcs; d++) sqlite_dc_close(files[d]);
    mz_log_close(log);
    mz_tc_free(tc);
    return sum != 2 * ACCOUNTS * OPENING;
}
