/* One list on this kernel: a thread for each task, and a driver below all of them. */
#ifndef THREADS_H
#define THREADS_H

#include <stdatomic.h>

#include "list.h"

/* How a run ends. */
enum ending {
    WHOLE,       /* every event was taken */
    SILENT,      /* nobody took the next event, and the run was ended */
    OUT_OF_STEP, /* whoever took an event could not do it */
    UNABLE,      /* the list could not be started */
    DIED,        /* the process of the run ended too early */
};

/* Ways to go wrong on purpose. */
enum wrong {
    NOTHING,
    STAYS,          /* whoever takes the event in the middle goes on for ever */
    RAISES_NOTHING, /* the locks have no ceiling */
    FORGETS_AGAIN,  /* a take of a lock that the task has open is not counted, so the first unlock frees the lock */
};

/* What is known of a run, in memory that its watcher shares. */
struct trace {
    /* How many events were taken. The end of the list is taken like an event. */
    atomic_uint taken;
    /* Who took each: a task's number, or NOBODY for the driver. */
    uint8_t who[MOST_EVENTS + 1];
    _Atomic enum ending ending;
    /* Whether the tasks' calls for another priority were counted, and how many there were. */
    bool is_counted;
    uint32_t calls;
};

/* Runs the list with all its threads on one processor, and ends the process. */
_Noreturn void run(const struct list *list, int processor, enum wrong wrong, struct trace *trace);

#endif
