/* A plan and its events, where they lie in a book, and the priorities that its tasks get from this kernel. */
#ifndef LIST_H
#define LIST_H

#include <stdbool.h>
#include <stddef.h>
#include <stdint.h>

/* A byte names a task or a lock, and two bytes count the events. */
enum { MOST_TASKS = 255, MOST_LOCKS = 256, MOST_EVENTS = 65535 };

/* Stands where a task is named and nobody runs. */
enum { NOBODY = 255 };

/* The kinds of event. */
enum { RELEASE = 1, ACQUIRE, UNLOCK, WORK, FINISH, TICK };

/* Four bytes as a number, little-endian. */
uint32_t four_bytes(const uint8_t *bytes);

struct list {
    size_t tasks, locks, events;
    const uint8_t *task, *lock, *event;
};

/* Whether the bytes are a book that can be run here. Lists come from books that were accepted, so no more is looked at
 * than a run needs: that the bodies lie in the book, that each event names a task or lock that is there, and that this
 * kernel has a priority for each base. */
bool list_of(const uint8_t *book, size_t size, struct list *list);

const uint8_t *event_at(const struct list *list, size_t place);

/* This kernel's priorities for SCHED_FIFO. The driver's is the least of all. The bases of the plan come after it by their
 * rank; a ceiling is the base of one of the lock's users. */
int driver_priority(void);
int task_priority(const struct list *list, size_t task);
int lock_priority(const struct list *list, size_t lock);

#endif
