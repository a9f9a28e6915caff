/* What a test expects: it says each that wasn't so, with its line, and ends with 1. */
#ifndef SEEN_H
#define SEEN_H

#include <stdio.h>

static int failures;

static void seen(int so, const char *what, int line) {
    if (so) return;
    printf("line %d: not so: %s\n", line, what);
    failures++;
}

#define SEEN(what) seen((what) != 0, #what, __LINE__)

#endif
