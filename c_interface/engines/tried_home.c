/* A log's home, by the bytes alone:
 *
 *     tried_home FOLDER OBJECT
 *
 * One after another takes over and finds what those before it appended; none of an earlier epoch appends, replaces,
 * beats or is still taken; what is another log, or isn't as it was written, is refused by its name; where there is no
 * room nothing is appended, and one goes on once there is. Where a member has to be promoted nobody appends by the
 * former one. It says what wasn't so, and ends with 1. */
#include "home.h"
#include "mazzulpe_object.h"
#include "../tests/seen.h"
#include <signal.h>
#include <sys/prctl.h>
#include <sys/wait.h>

enum { SILENCE = 50, MUCH = 1500000, MOST = 20, BLOCKED = 2 };

typedef struct { uint8_t *bytes; size_t count; uint64_t session; mz_code code; } content;

static uint8_t much[MUCH];

/* A writer of the epoch that it has taken, and what it found. */
static void *taken(content *found) {
    void *home = home_open(SILENCE);
    memset(found, 0, sizeof *found);
    if (!home || !home_await(home)) exit(2);
    found->code = home_read(home, &found->bytes, &found->count, &found->session);
    return home;
}

static int is_found(const content *found, const void *bytes, size_t count) {
    return found->code == MZ_OK && found->count == count && (!count || !memcmp(found->bytes, bytes, count));
}

static int appends(void *home, const void *bytes, size_t count) {
    const mz_device device = home_device(home);
    return !device.append(device.context, bytes, count) && !device.sync(device.context);
}

static int is_replaced(void *home, const void *bytes, size_t count) {
    const mz_device device = home_device(home);
    return !device.replace(device.context, bytes, count);
}

static int is_taken_from(void *home) {
    const mz_device device = home_device(home);
    return !home_beat(home) && device.sync(device.context) && device.append(device.context, "x", 1) && device.replace(device.context, "x", 1);
}

/* ---- whose log it is */

static const char *object;

/* What a transaction component of so many data components is answered that takes over. It admits a call, of another
 * account each. */
static mz_code taken_over(uint16_t dcs) {
    static uint64_t account;
    const uint64_t args[] = {account++, 1};
    uint64_t txn;
    mz_code c;
    mz_tc *tc = mz_tc_new(dcs, &c);
    mz_log *log = NULL;
    void *home = home_open(SILENCE);
    if (!tc || mz_load_object_file(tc, object, NULL, NULL) != MZ_OK || !home || !home_await(home)) exit(2);
    const mz_device device = home_device(home);
    c = mz_log_take_over(tc, &device, home_read, &log, NULL);
    if (c == MZ_OK) c = mz_admit(tc, 0, args, 2, &txn, NULL, NULL);
    if (c == MZ_OK) c = mz_log_keep(log);
    if (log) mz_log_close(log);
    else home_close(home);
    mz_tc_free(tc);
    return c;
}

/* What is refused stays as it was. */
static void tries_other_logs(void) {
    content before, now;
    SEEN(taken_over(2) == MZ_OK && taken_over(2) == MZ_OK);
    void *home = taken(&before);
    SEEN(before.code == MZ_OK && before.count);
    SEEN(taken_over(3) == MZ_OTHER_PROCEDURES);
    home_close(taken(&now));
    SEEN(is_found(&now, before.bytes, before.count) && is_taken_from(home));
    SEEN(home_damage(BYTE) && taken_over(2) == MZ_DAMAGED);
    home_close(home);
    home = taken(&now);
    SEEN(now.code == MZ_OK && now.count == before.count && memcmp(now.bytes, before.bytes, now.count));
    SEEN(is_replaced(home, much, 100) && taken_over(2) == MZ_NO_LOG);
    home_close(home);
}

/* ---- one after another */

static void tries_writers(void) {
    content found;
    void *first = taken(&found);
    const uint64_t session = found.session;
    SEEN(found.code == MZ_OK && session && home_beat(first) && is_replaced(first, much, 3));
    SEEN(appends(first, much + 3, 1) && appends(first, much + 4, MUCH - 4));
    void *second = taken(&found);
    SEEN(is_found(&found, much, MUCH) && found.session == session);
    SEEN(is_taken_from(first));
    const mz_device device = home_device(second);
    SEEN(!device.sync(device.context) && home_beat(second));
    SEEN(is_replaced(second, "anew", 4) && appends(second, " it is", 6));
    void *third = taken(&found);
    SEEN(is_found(&found, "anew it is", 10) && found.session == session && is_taken_from(second) && is_taken_from(first));
    home_close(first);
    home_close(second);
    home_close(third);
}

/* ---- without room */

static int is_named(const char *folder, const char *what) {
    char path[512], text[4096] = "";
    snprintf(path, sizeof path, "%s/refused", folder);
    fflush(stderr);
    FILE *f = fopen(path, "r");
    size_t count = f ? fread(text, 1, sizeof text - 1, f) : 0;
    if (f) fclose(f);
    text[count] = 0;
    return strstr(text, what) != NULL;
}

static void tries_without_room(const char *folder) {
    content found;
    void *home = taken(&found);
    size_t count = 0;
    const char *refusal = home_limit(1);
    SEEN(refusal != NULL && is_found(&found, "anew it is", 10));
    while (count < MOST && appends(home, much, MUCH)) count++;
    SEEN(count < MOST && refusal && is_named(folder, refusal));
    SEEN(home_limit(0) != NULL);
    home_close(home);
    home = taken(&found);
    SEEN(found.code == MZ_OK && found.count == 10 + count * MUCH);
    for (size_t i = 0; i < count; i++) SEEN(!memcmp(found.bytes + 10 + i * MUCH, much, MUCH));
    SEEN(is_replaced(home, "there is room", 13));
    home_close(home);
}

/* ---- a promoted member */

/* One that goes on over the former member: what it appends there never comes to its end, and is refused once it finds
 * the other. */
static pid_t goes_on(const int begins[2]) {
    char byte;
    content found;
    pid_t child = fork();
    if (child) return child;
    prctl(PR_SET_PDEATHSIG, SIGKILL);
    void *home = taken(&found);
    _exit(!appends(home, "!", 1) || read(begins[0], &byte, 1) != 1 || appends(home, "late", 4));
}

static void tries_promoted(pid_t former, int begins) {
    int status = 1;
    content found;
    void *home = taken(&found);
    SEEN(is_found(&found, "there is room!", 14) && write(begins, "g", 1) == 1);
    sleep(BLOCKED);
    SEEN(waitpid(former, &status, WNOHANG) == 0 && appends(home, "now", 3));
    home_kill(0);
    SEEN(waitpid(former, &status, 0) == former && WIFEXITED(status) && WEXITSTATUS(status) == 0);
    home_close(home);
    home = taken(&found);
    SEEN(is_found(&found, "there is room!now", 17));
    home_close(home);
}

/* How many members are killed by that; 0 where none can be promoted. */
static int tries_promoting(void) {
    int begins[2];
    if (pipe(begins)) exit(2);
    pid_t former = goes_on(begins);
    sleep(BLOCKED);
    if (home_promote()) {
        tries_promoted(former, begins[1]);
        return 1;
    }
    kill(former, SIGKILL);
    waitpid(former, NULL, 0);
    return 0;
}

/* ---- what is gone */

static void tries_damage(void) {
    content before, found;
    void *home = taken(&before);
    if (home_damage(EPOCH_GONE)) {
        SEEN(is_taken_from(home));
        home_close(home);
        home = taken(&found);
        SEEN(is_found(&found, before.bytes, before.count));
    }
    SEEN(home_damage(CHUNK_GONE));
    void *second = taken(&found);
    SEEN(found.code == MZ_DAMAGED && is_taken_from(home) && is_replaced(second, "whole", 5));
    void *third = taken(&found);
    SEEN(is_found(&found, "whole", 5) && home_damage(END_GONE) && !appends(third, "x", 1));
    SEEN(taken_over(2) == MZ_DAMAGED && is_taken_from(third));
    home_close(home);
    home_close(second);
    home_close(third);
}

int main(int count, char **words) {
    char refused[512];
    if (count != 3 || !home_begin(words[1])) return 2;
    object = words[2];
    snprintf(refused, sizeof refused, "%s/refused", words[1]);
    if (!freopen(refused, "w", stderr)) return 2;
    for (size_t i = 0; i < MUCH; i++) much[i] = (uint8_t)(i * 2654435761u >> 13);
    tries_other_logs();
    tries_writers();
    tries_without_room(words[1]);
    int killed = tries_promoting();
    tries_damage();
    for (int m = killed; m < HOMES; m++) home_kill(m);
    if (!failures) printf("a home of %d members: taken over, read, replaced, without room, %sdamaged\n", HOMES,
                          killed ? "promoted, " : "");
    return failures != 0;
}
