/* A process whose whole offspring ends with it, however it ends: servers that it started, and theirs. */
#ifndef SUPERVISED_H
#define SUPERVISED_H

#include <signal.h>
#include <stdio.h>
#include <stdlib.h>
#include <sys/prctl.h>
#include <sys/wait.h>
#include <unistd.h>

/* Ends each child by SIGKILL; theirs are children of this process then, since it has asked for them. */
static inline void supervised_end(void) {
    char path[64];
    snprintf(path, sizeof path, "/proc/self/task/%d/children", (int)getpid());
    for (pid_t ended = 0; ended >= 0; ended = waitpid(-1, NULL, 0)) {
        int child;
        FILE *children = fopen(path, "r");
        while (children && fscanf(children, "%d", &child) == 1) kill(child, SIGKILL);
        if (children) fclose(children);
    }
}

/* Runs the rest of the program in a child, which returns here. Its parent waits for its end, or to be interrupted, ends what
 * is left of it, removes the folder, and ends as it did. */
static inline void supervised_begin(const char *folder) {
    sigset_t wanted;
    int status = 0, caught = SIGCHLD;
    sigemptyset(&wanted);
    for (const int *s = (const int[]){SIGCHLD, SIGINT, SIGTERM, SIGHUP, 0}; *s; s++) sigaddset(&wanted, *s);
    if (prctl(PR_SET_CHILD_SUBREAPER, 1) || sigprocmask(SIG_BLOCK, &wanted, NULL)) return;
    pid_t parent = getpid(), child = fork();
    if (child < 0) exit(2);
    if (child == 0) {
        sigprocmask(SIG_UNBLOCK, &wanted, NULL);
        if (setsid() < 0 || prctl(PR_SET_PDEATHSIG, SIGKILL) || getppid() != parent) _exit(2);
        return;
    }
    while (caught == SIGCHLD && waitpid(child, &status, WNOHANG) != child) sigwait(&wanted, &caught);
    supervised_end();
    if (fork() == 0) execlp("rm", "rm", "-rf", folder, (char *)NULL);
    wait(NULL);
    if (caught != SIGCHLD || !WIFEXITED(status)) fprintf(stderr, "ended by signal %d\n", caught != SIGCHLD ? caught : WTERMSIG(status));
    exit(caught == SIGCHLD && WIFEXITED(status) ? WEXITSTATUS(status) : 2);
}

#endif
