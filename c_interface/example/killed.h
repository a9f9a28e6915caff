/* Lives of a program that is ended by SIGKILL at random moments. */
#ifndef KILLED_H
#define KILLED_H

#include <signal.h>
#include <stdint.h>
#include <stdio.h>
#include <stdlib.h>
#include <sys/mman.h>
#include <sys/wait.h>
#include <unistd.h>

/* What the parent sees of its child, and counts: kills, and those within a checkpoint. */
typedef struct { volatile uint64_t in_checkpoint, checkpoints; uint64_t kills, within; } watched;

/* Memory that the lives share with their parent. */
static inline void *shared_by_lives(size_t bytes) {
    void *at = mmap(NULL, bytes, PROT_READ | PROT_WRITE, MAP_SHARED | MAP_ANONYMOUS, -1, 0);
    if (at == MAP_FAILED) exit(2);
    return at;
}

static inline int has_ended(pid_t child) {
    siginfo_t ended = {0};
    return waitid(P_PID, (id_t)child, &ended, WEXITED | WNOHANG | WNOWAIT) || ended.si_pid;
}

/* Until a random moment, each fourth time one within a checkpoint, where it comes to one. */
static inline void await_a_moment(pid_t child, const watched *w, unsigned most) {
    int in_checkpoint = w->kills % 4 == 3;
    if (!in_checkpoint) usleep((unsigned)rand() % most);
    for (int i = 0; in_checkpoint && i < 100000 && !w->in_checkpoint && !has_ended(child); i++) usleep(50);
    if (in_checkpoint) usleep((unsigned)rand() % (256u << rand() % 9));
}

/* Runs `live` in a process, which is killed within `most` microseconds, and again: so often, and then to its end. The
 * status of the one that ended by itself, which is told by `last` that nobody kills it. */
static inline int lives(int (*live)(void *context, int last), void *context, watched *w, uint64_t kills, unsigned most) {
    int status = 0;
    for (;;) {
        int last = w->kills == kills;
        w->in_checkpoint = 0;
        fflush(stdout);
        pid_t child = fork();
        if (child == 0) {
            status = live(context, last);
            fflush(stdout);
            _exit(status);
        }
        if (child > 0 && !last) await_a_moment(child, w, most);
        if (child > 0 && !last) kill(child, SIGKILL);
        if (child < 0 || waitpid(child, &status, 0) != child) return 2;
        if (WIFEXITED(status)) return WEXITSTATUS(status);
        if (last || WTERMSIG(status) != SIGKILL) return 2;
        w->kills++;
        w->within += w->in_checkpoint;
    }
}

#endif
