#define _GNU_SOURCE
#include "machine.h"

#include <pthread.h>
#include <sched.h>
#include <stdbool.h>

static int processor = -1;

int tasks_processor(void) {
    return processor;
}

/* The tasks get the last processor that this program may use, and the others are its own. False without another one. */
static bool share_processors(void) {
    cpu_set_t set;
    if (sched_getaffinity(0, sizeof set, &set) != 0 || CPU_COUNT(&set) < 2) return false;
    for (int k = 0; k < CPU_SETSIZE; k++) {
        if (CPU_ISSET(k, &set)) processor = k;
    }
    CPU_CLR(processor, &set);
    return sched_setaffinity(0, sizeof set, &set) == 0;
}

/* Whether this program may have threads of every priority. It has the highest itself for a moment. */
static bool has_right(void) {
    struct sched_param top = {.sched_priority = sched_get_priority_max(SCHED_FIFO)}, none = {.sched_priority = 0};
    return sched_setscheduler(0, SCHED_FIFO, &top) == 0 && sched_setscheduler(0, SCHED_OTHER, &none) == 0;
}

static bool has_ceilings(void) {
    pthread_mutexattr_t attr;
    return pthread_mutexattr_init(&attr) == 0 && pthread_mutexattr_setprotocol(&attr, PTHREAD_PRIO_PROTECT) == 0;
}

const char *machine_lacks(void) {
    if (!share_processors()) return "there is no second processor to watch from";
    if (!has_right()) return "there is no right to SCHED_FIFO";
    if (!has_ceilings()) return "the C library has no locks with a ceiling";
    return NULL;
}
