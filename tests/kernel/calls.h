/* How often a thread asks the kernel to change a priority: the system call sched_setscheduler, by which the C library raises
 * and lowers a thread at the locks with a ceiling. The kernel's own tracing counts it. */
#ifndef CALLS_H
#define CALLS_H

#include <stdbool.h>
#include <stdint.h>

/* To be called once, before any list. Calls can be counted where the file system tracefs names the trace point and this program
 * may read it; where it is not mounted, it is mounted for this program alone. */
void calls_begin(void);

/* Counts the calls of the thread that asks from now on; a file descriptor, or -1. */
int calls_open(void);

/* How many there were. False where they were not counted. */
bool calls_read(int counter, uint32_t *calls);

#endif
