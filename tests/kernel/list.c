#include "list.h"

#include <sched.h>

enum { ENTRY_BYTES = 8, TASK_BYTES = 2, LOCK_BYTES = 4, EVENT_BYTES = 4 };

uint32_t four_bytes(const uint8_t *bytes) {
    return bytes[0] + ((uint32_t)bytes[1] << 8) + ((uint32_t)bytes[2] << 16) + ((uint32_t)bytes[3] << 24);
}

/* The body of one entry of the contents, from 0; nothing where it does not lie in the book. */
static const uint8_t *body(const uint8_t *book, size_t size, size_t entry, size_t bytes, size_t *count) {
    const uint8_t *at = book + ENTRY_BYTES * entry;
    size_t start = four_bytes(at + 4);
    *count = at[2] + ((size_t)at[3] << 8);
    return start <= size && *count * bytes <= size - start ? book + start : NULL;
}

/* How many bases up to this one the plan has. */
static int rank(const struct list *list, uint8_t base) {
    bool is_there[256] = {false};
    for (size_t k = 0; k < list->tasks; k++) is_there[list->task[TASK_BYTES * k]] = true;
    int count = 0;
    for (unsigned other = 0; other <= base; other++) count += is_there[other];
    return count;
}

static int priority(const struct list *list, uint8_t base) {
    return driver_priority() + rank(list, base);
}

bool list_of(const uint8_t *book, size_t size, struct list *list) {
    if (size < 4 * ENTRY_BYTES) return false;
    list->task = body(book, size, 0, TASK_BYTES, &list->tasks);
    list->lock = body(book, size, 1, LOCK_BYTES, &list->locks);
    list->event = body(book, size, 3, EVENT_BYTES, &list->events);
    if (!list->task || !list->lock || !list->event) return false;
    if (list->tasks > MOST_TASKS || list->locks > MOST_LOCKS) return false;
    for (size_t k = 0; k < list->events; k++) {
        const uint8_t *event = event_at(list, k);
        if (event[0] == RELEASE && event[1] >= list->tasks) return false;
        if ((event[0] == ACQUIRE || event[0] == UNLOCK) && event[1] >= list->locks) return false;
    }
    return priority(list, 255) <= sched_get_priority_max(SCHED_FIFO);
}

const uint8_t *event_at(const struct list *list, size_t place) {
    return list->event + EVENT_BYTES * place;
}

int driver_priority(void) {
    return sched_get_priority_min(SCHED_FIFO);
}

int task_priority(const struct list *list, size_t task) {
    return priority(list, list->task[TASK_BYTES * task]);
}

int lock_priority(const struct list *list, size_t lock) {
    return priority(list, list->lock[LOCK_BYTES * lock]);
}
