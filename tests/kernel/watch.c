#define _GNU_SOURCE
#include "watch.h"

#include <signal.h>
#include <sys/prctl.h>
#include <sys/wait.h>
#include <time.h>
#include <unistd.h>

/* The signal that a process has ended. */
static sigset_t ended;

void watch_begin(void) {
    sigemptyset(&ended);
    sigaddset(&ended, SIGCHLD);
    sigprocmask(SIG_BLOCK, &ended, NULL);
}

static long long now(void) {
    struct timespec time;
    clock_gettime(CLOCK_MONOTONIC, &time);
    return time.tv_sec * 1000000000LL + time.tv_nsec;
}

/* Waits for the end of a process, and ends it when its time is over. A process has ended when all its threads have, so none
 * is left behind. */
static void end_in_time(pid_t child, long patience, struct trace *trace) {
    long long deadline = now() + patience * 1000000LL;
    int status;
    while (waitpid(child, &status, WNOHANG) != child) {
        long long left = deadline - now();
        if (left <= 0) {
            kill(child, SIGKILL);
            waitpid(child, &status, 0);
            trace->ending = SILENT;
            return;
        }
        struct timespec time = {.tv_sec = left / 1000000000, .tv_nsec = left % 1000000000};
        sigtimedwait(&ended, NULL, &time);
    }
    if (!WIFEXITED(status) || WEXITSTATUS(status) != 0) trace->ending = DIED;
}

void watch(const struct list *list, int processor, enum wrong wrong, long patience, struct trace *trace) {
    pid_t watcher = getpid();
    pid_t child = fork();
    if (child == 0) {
        /* It does not outlive its watcher. */
        prctl(PR_SET_PDEATHSIG, SIGKILL);
        if (getppid() != watcher) _exit(1);
        run(list, processor, wrong, trace);
    }
    if (child > 0) {
        end_in_time(child, patience, trace);
    } else {
        trace->ending = UNABLE;
    }
}
