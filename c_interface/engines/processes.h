/* Processes of servers. */
#ifndef PROCESSES_H
#define PROCESSES_H

#include <fcntl.h>
#include <pwd.h>
#include <signal.h>
#include <stdio.h>
#include <stdlib.h>
#include <sys/prctl.h>
#include <sys/wait.h>
#include <unistd.h>

/* Starts a program with these words, the first of which is the program, by this user if it is given. This file is its
 * output, and it ends with who started it. */
static inline pid_t process_begin(const char *const *words, const char *output, const struct passwd *user) {
    pid_t starter = getpid(), pid = fork();
    if (pid < 0) {
        perror("fork");
        exit(1);
    }
    if (pid) return pid;
    int file = open(output, O_WRONLY | O_CREAT | O_APPEND | O_CLOEXEC, 0666);
    if (file < 0 || dup2(file, 1) < 0 || dup2(file, 2) < 0) _exit(125);
    if (user && (setgid(user->pw_gid) || setuid(user->pw_uid))) _exit(126);
    if (prctl(PR_SET_PDEATHSIG, SIGKILL) || getppid() != starter) _exit(124);
    execvp(words[0], (char *const *)words);
    perror(words[0]);
    _exit(127);
}

/* Whether it ends well. */
static inline int process_runs(const char *const *words, const char *output, const struct passwd *user) {
    int status = 0;
    pid_t pid = process_begin(words, output, user);
    return waitpid(pid, &status, 0) == pid && WIFEXITED(status) && WEXITSTATUS(status) == 0;
}

static inline void process_kill(pid_t pid) {
    kill(pid, SIGKILL);
    waitpid(pid, NULL, 0);
}

#endif
