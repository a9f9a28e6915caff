/* The processor time of processes that another one started. */
#ifndef CPU_H
#define CPU_H

#include <stdio.h>
#include <string.h>
#include <unistd.h>

/* Of a process and of its ended children, in seconds. */
static inline double cpu_of(pid_t pid) {
    char path[64], line[1000];
    unsigned long long own, system, children, children_system;
    snprintf(path, sizeof path, "/proc/%d/stat", (int)pid);
    FILE *f = fopen(path, "r");
    const char *at = f && fgets(line, sizeof line, f) ? strrchr(line, ')') : NULL;
    if (f) fclose(f);
    static const char times[] = "%*c %*d %*d %*d %*d %*d %*u %*u %*u %*u %*u %llu %llu %llu %llu";
    if (!at || sscanf(at + 2, times, &own, &system, &children, &children_system) != 4) return 0;
    return (double)(own + system + children + children_system) / (double)sysconf(_SC_CLK_TCK);
}

/* Of all that a process started, and these, but for `except`. */
static inline double cpu_below(pid_t pid, pid_t except) {
    char path[64];
    double sum = 0;
    int child;
    snprintf(path, sizeof path, "/proc/%d/task/%d/children", (int)pid, (int)pid);
    FILE *f = fopen(path, "r");
    while (f && fscanf(f, "%d", &child) == 1)
        if (child != except) sum += cpu_of(child) + cpu_below(child, except);
    if (f) fclose(f);
    return sum;
}

#endif
