#include "alone.h"
#include "etcd_post.h"
#include "etcd_storage.h"
#include <stdio.h>
#include <stdlib.h>
#include <unistd.h>

enum { TOGETHER = 100, TRIES = 10, REST = 100000 }; /* accounts that are made in one transaction; microseconds */

/* An account is the key a/NNNNN, with its balance as a number in text. */
static const char *key_of(char to[ETCD_TEXT], uint64_t account) {
    char text[24];
    return etcd_coded(to, text, (size_t)snprintf(text, sizeof text, "a/%05llu", (unsigned long long)account));
}

static const char *balance_of(char to[ETCD_TEXT], uint64_t balance) {
    char text[24];
    return etcd_coded(to, text, (size_t)snprintf(text, sizeof text, "%llu", (unsigned long long)balance));
}

static void *connected(const char *folder, int synced) {
    etcd_connection *c = (etcd_connection *)calloc(1, sizeof *c);
    (void)folder;
    (void)synced;
    if (!c) return NULL;
    c->members = etcd_members(0);
    c->fd = -1;
    return c;
}

static void disconnect(void *context) {
    etcd_let_go((etcd_connection *)context);
    free(context);
}

/* Again if nobody answers, as while a leader is elected. What was done all the same fails its comparison then. */
static int is_done(etcd_connection *c, const char *body) {
    etcd_status status = etcd_post(c, "kv/txn", body);
    for (int i = 1; i < TRIES && status == ETCD_LOST; i++) {
        usleep(REST);
        status = etcd_post(c, "kv/txn", body);
    }
    if (status == ETCD_REFUSED) fprintf(stderr, "etcd: %.200s\n", c->in);
    return status == ETCD_DONE;
}

static int begin(const char *folder, int synced) {
    static char body[TOGETHER * 100];
    char key[ETCD_TEXT], balance[ETCD_TEXT];
    etcd_connection *c = (etcd_connection *)connected(folder, synced);
    int ok = c != NULL;
    for (uint64_t a = 0; ok && a < ACCOUNTS; a += TOGETHER) {
        int length = sprintf(body, "{\"success\":[");
        for (uint64_t i = 0; i < TOGETHER; i++)
            length += sprintf(body + length, "%s{\"request_put\":{\"key\":\"%s\",\"value\":\"%s\"}}", i ? "," : "", key_of(key, a + i),
                              balance_of(balance, 1000000));
        sprintf(body + length, "]}");
        ok = is_done(c, body);
    }
    if (c) disconnect(c);
    return ok;
}

typedef struct { char key[ETCD_TEXT], balance[ETCD_TEXT]; uint64_t revision; } account;

static void read_account(etcd_part response, int amount, account *a) {
    uint8_t digits[24] = {0};
    const char *value = etcd_field(response, "value");
    if (value) etcd_decoded(value, digits, sizeof digits - 1);
    balance_of(a->balance, strtoull((const char *)digits, NULL, 10) + (uint64_t)(int64_t)amount);
    a->revision = etcd_number(response, "mod_revision");
}

/* Both are read, and written where they are as they were read; else again. */
static int transfer(void *context, uint64_t source, uint64_t target) {
    etcd_connection *c = (etcd_connection *)context;
    char body[1500];
    account from, to;
    key_of(from.key, source);
    key_of(to.key, target);
    for (;;) {
        snprintf(body, sizeof body, "{\"success\":[{\"request_range\":{\"key\":\"%s\"}},{\"request_range\":{\"key\":\"%s\"}}]}",
                 from.key, to.key);
        if (!is_done(c, body)) return 0;
        read_account(etcd_response(etcd_whole(c), 0), -1, &from);
        read_account(etcd_response(etcd_whole(c), 1), 1, &to);
        snprintf(body, sizeof body, "{\"compare\":[{\"key\":\"%s\",\"target\":\"MOD\",\"result\":\"EQUAL\",\"mod_revision\":\"%llu\"},"
                 "{\"key\":\"%s\",\"target\":\"MOD\",\"result\":\"EQUAL\",\"mod_revision\":\"%llu\"}],\"success\":["
                 "{\"request_put\":{\"key\":\"%s\",\"value\":\"%s\"}},{\"request_put\":{\"key\":\"%s\",\"value\":\"%s\"}}]}", from.key,
                 (unsigned long long)from.revision, to.key, (unsigned long long)to.revision, from.key, from.balance, to.key, to.balance);
        if (!is_done(c, body)) return 0;
        if (etcd_field(etcd_whole(c), "succeeded")) return 1;
    }
}

const alone_way alone_ways[] = {{"etcd, read and compare", begin, connected, transfer, disconnect}, {NULL, NULL, NULL, NULL, NULL}};
