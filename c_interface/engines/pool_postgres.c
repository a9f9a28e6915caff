/* An engine from an empty folder: `pool_postgres LOG HERE THERE` opens accounts in two PostgreSQL databases, of these
 * connection words, and threads move amounts between them. It may be killed at any moment, and goes on from its log. */
#include "mazzulpe_pool.h"
#include "bank.h"
#include "postgres_dc.h"

enum { THREADS = 64, TRANSFERS = 50, ACCOUNTS = 200, OPENING = 1000, CALLS_AT_ONCE = 64 };

static mz_pool *pool;

static int keep(void *databases, uint16_t dc, uint64_t incarnation, uint64_t mark) {
    return postgres_dc_keep(((postgres_dc **)databases)[dc], incarnation, mark);
}

static void *transfers(void *number) {
    const uint64_t from = (uint64_t)(uintptr_t)number;
    mz_receipt receipt;
    for (uint64_t turn = 0; turn < TRANSFERS; turn++)
        if (bank_move_call(pool, from, (from + turn * 7) % ACCOUNTS, 1, NULL, &receipt) != MZ_OK) exit(1);
    return NULL;
}

int main(int count, char **words) {
    mz_code c;
    mz_log *log;
    mz_tc *tc = mz_tc_new(bank_dcs, &c);
    postgres_dc *databases[bank_dcs];
    mz_batched components[bank_dcs];
    pthread_t threads[THREADS];
    mz_receipt receipt;
    bank_balances_held held;
    uint64_t sum = 0, came_back = 0;
    if (count != 2 + bank_dcs || !tc || bank_open(tc) != MZ_OK) return 1;
    if (mz_log_open(tc, words[1], &log, NULL) != MZ_OK) return 1;
    for (int d = 0; d < bank_dcs; d++) {
        databases[d] = postgres_dc_open(words[2 + d], mz_session(tc), POSTGRES_DC_LATER);
        if (!databases[d]) return 1;
        components[d] = postgres_dc_batched(databases[d]);
    }
    if (mz_pool_open_batched(tc, log, components, bank_dcs, CALLS_AT_ONCE, NULL, &pool) != MZ_OK) return 1;
    if (mz_pool_come_back(pool, &came_back) != MZ_OK) return 1;
    for (uint64_t a = 0; a < ACCOUNTS; a++) {
        if (bank_balances_call(pool, a, a, &held, &receipt) != MZ_OK) return 1;
        if (!held.here.there) bank_deposit_here_call(pool, a, OPENING, NULL, &receipt);
        if (!held.there.there) bank_deposit_there_call(pool, a, OPENING, NULL, &receipt);
    }
    for (uintptr_t t = 0; t < THREADS; t++)
        if (pthread_create(&threads[t], NULL, transfers, (void *)t)) return 1;
    for (int t = 0; t < THREADS; t++) pthread_join(threads[t], NULL);
    for (uint64_t a = 0; a < ACCOUNTS && bank_balances_call(pool, a, a, &held, &receipt) == MZ_OK; a++)
        sum += mz_little(held.here.value, 8) + mz_little(held.there.value, 8);
    c = mz_pool_checkpoint(pool, 1000, keep, databases);
    printf("%s; came back: %llu, checkpoint: %s\n", sum == 2 * ACCOUNTS * OPENING ? "the sum stays" : "THE SUM IS WRONG",
           (unsigned long long)came_back, mz_code_text(c));
    mz_pool_close(pool, 1000);
    for (int d = 0; d < bank_dcs; d++) postgres_dc_close(databases[d]);
    mz_log_close(log);
    mz_tc_free(tc);
    return sum != 2 * ACCOUNTS * OPENING;
}
