/* A log's home of three etcd members, on ports of the loopback. */
#include "home.h"
#include "etcd_log.h"
#include "etcd_post.h"
#include "processes.h"

enum { FIRST_PORT = 24000, RUNS = 30, ANSWERS_WITHIN = 60000, TEXT = 1000 };

static pid_t pids[HOMES];
static const char *room = "0"; /* as etcd's own */
static int first_port;
static char at_folder[300], members[200];

static int port(int member, int is_peer) { return first_port + 2 * member + is_peer; }

/* ---- the way to it */

void *home_open(unsigned silence) { return etcd_log_open(members, "bank", silence); }
int home_await(void *home) { return etcd_log_await((etcd_log *)home); }
int home_beat(void *home) { return etcd_log_beat((etcd_log *)home); }
mz_device home_device(void *home) { return etcd_log_device((etcd_log *)home); }
void home_close(void *home) { etcd_log_close(home); }

mz_code home_read(void *home, uint8_t **bytes, size_t *count, uint64_t *session) { return etcd_log_read(home, bytes, count, session); }

static int is_posted(const char *path, const char *body) {
    etcd_connection c = {.members = members, .fd = -1};
    int is = etcd_post(&c, path, body) == ETCD_DONE;
    etcd_let_go(&c);
    return is;
}

/* Of the chunks from "bank/c/" on the first: it is gone, or one of its last bytes is another. */
static int is_chunk_damaged(int is_gone) {
    enum { HERE = 20, ROOM = 4096 };
    static const char from[] = "bank/c/", to[] = "bank/c0";
    char coded_from[ETCD_TEXT], coded_to[ETCD_TEXT], coded[2 * ROOM], body[3 * ROOM];
    uint8_t bytes[ROOM];
    etcd_connection c = {.members = members, .fd = -1};
    snprintf(body, sizeof body, "{\"key\":\"%s\",\"range_end\":\"%s\",\"limit\":\"1\"}",
             etcd_coded(coded_from, from, sizeof from - 1), etcd_coded(coded_to, to, sizeof to - 1));
    int is = etcd_post(&c, "kv/range", body) == ETCD_DONE;
    const char *key = is ? etcd_field(etcd_whole(&c), "key") : NULL;
    const char *value = key ? etcd_field(etcd_whole(&c), "value") : NULL;
    size_t count = value ? etcd_decoded(value, bytes, sizeof bytes) : 0;
    if (count > HERE) bytes[count - HERE] ^= 1;
    int length = snprintf(body, sizeof body, "{\"key\":\"%.*s\"", key ? (int)strcspn(key, "\"") : 0, key ? key : "");
    snprintf(body + length, sizeof body - (size_t)length, is_gone ? "}" : ",\"value\":\"%s\"}",
             etcd_coded(coded, bytes, count));
    is = count > HERE && etcd_post(&c, is_gone ? "kv/deleterange" : "kv/put", body) == ETCD_DONE;
    etcd_let_go(&c);
    return is;
}

int home_damage(home_damages what) {
    const char *key = what == EPOCH_GONE ? "bank/epoch" : "bank/end";
    char coded[ETCD_TEXT], body[ETCD_TEXT + 20];
    if (what == BYTE || what == CHUNK_GONE) return is_chunk_damaged(what == CHUNK_GONE);
    snprintf(body, sizeof body, "{\"key\":\"%s\"}", etcd_coded(coded, key, strlen(key)));
    return is_posted("kv/deleterange", body);
}

/* ---- its members */

void home_kill(int member) { process_kill(pids[member]); }

void home_start(int member) {
    char name[16], data[400], peer[60], at[60], all[300], output[400];
    snprintf(name, sizeof name, "h%d", member);
    snprintf(data, sizeof data, "%s/%s", at_folder, name);
    snprintf(output, sizeof output, "%s/said", at_folder);
    snprintf(peer, sizeof peer, "http://127.0.0.1:%d", port(member, 1));
    snprintf(at, sizeof at, "http://127.0.0.1:%d", port(member, 0));
    snprintf(all, sizeof all, "h0=http://127.0.0.1:%d,h1=http://127.0.0.1:%d,h2=http://127.0.0.1:%d", port(0, 1), port(1, 1), port(2, 1));
    const char *words[] = {"etcd", "--name", name, "--data-dir", data, "--listen-client-urls", at, "--advertise-client-urls", at,
                           "--listen-peer-urls", peer, "--initial-advertise-peer-urls", peer, "--initial-cluster", all,
                           "--initial-cluster-token", "home", "--logger", "zap", "--log-level", "fatal",
                           "--heartbeat-interval", "50", "--election-timeout", "500",
                           "--quota-backend-bytes", room, NULL};
    pids[member] = process_begin(words, output, NULL);
}

static int answers(void) {
    int waited = 0;
    for (; !is_posted("kv/range", "{\"key\":\"YmFuaw==\"}") && waited < ANSWERS_WITHIN; waited += 20) usleep(20000);
    return waited < ANSWERS_WITHIN;
}

int home_begin(const char *folder) {
    snprintf(at_folder, sizeof at_folder, "%s", folder);
    first_port = FIRST_PORT + 2 * HOMES * (getpid() % RUNS);
    snprintf(members, sizeof members, "127.0.0.1:%d,127.0.0.1:%d,127.0.0.1:%d", port(0, 0), port(1, 0), port(2, 0));
    for (int m = 0; m < HOMES; m++) home_start(m);
    return answers();
}

/* The room is less than what there is by now. An alarm that was raised stays until it is disarmed. */
const char *home_limit(int is_limited) {
    room = is_limited ? "10000" : "0";
    for (int m = 0; m < HOMES; m++) home_kill(m);
    for (int m = 0; m < HOMES; m++) home_start(m);
    const char *disarmed[] = {"etcdctl", "--endpoints", members, "alarm", "disarm", NULL};
    return answers() && (is_limited || process_runs(disarmed, "/dev/null", NULL)) ? "database space exceeded" : NULL;
}

int home_promote(void) { return 0; }
