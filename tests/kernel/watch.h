/* A list in a process of its own, which is watched from another processor. */
#ifndef WATCH_H
#define WATCH_H

#include "threads.h"

/* To be called once, before any list. */
void watch_begin(void);

/* Runs a list, and ends it if it takes longer than so many milliseconds. */
void watch(const struct list *list, int processor, enum wrong wrong, long patience, struct trace *trace);

#endif
