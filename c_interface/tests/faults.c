/* engines/faults.h: one fault, however often it comes, is a line a minute, and whoever gets it rests. */
#define _GNU_SOURCE 1
#include "engines/faults.h"
#include "seen.h"

enum { TIMES = 20 };

static int lines_of(FILE *f) {
    int lines = 0, c;
    rewind(f);
    while ((c = fgetc(f)) != EOF) lines += c == '\n';
    return lines;
}

int main(void) {
    faults own = {.lock = PTHREAD_MUTEX_INITIALIZER};
    struct timespec began, over;
    FILE *said = tmpfile();
    int kept = dup(2);
    if (!said || kept < 0 || dup2(fileno(said), 2) < 0) return 2;
    clock_gettime(CLOCK_MONOTONIC, &began);
    for (int i = 0; i < TIMES; i++) fault_seen(&own, "postgres", "42601: syntax error");
    clock_gettime(CLOCK_MONOTONIC, &over);
    SEEN(lines_of(said) == 1);
    SEEN((over.tv_sec - began.tv_sec) * 1000000 + (over.tv_nsec - began.tv_nsec) / 1000 >= TIMES * FAULT_REST);
    fault_seen(&own, "postgres", "22012: division by zero");
    SEEN(lines_of(said) == 2);
    own.named -= FAULT_NAMED_FOR;
    fault_seen(&own, "postgres", "22012: division by zero");
    SEEN(lines_of(said) == 3);
    dup2(kept, 2);
    if (!failures) printf("faults: named once a minute, with a rest\n");
    return failures != 0;
}
