/* Writes a book from C, to standard output: the crane plan with the events of P1, as the office types them. Build it so:
 *     tools/archive
 *     cc -Iinclude examples/office.c target/staticlib/libdevice.a -o office */
#include <stdio.h>

#include "recorder.h"

#define COUNT(list) (sizeof(list) / sizeof(list)[0])

/* A record is one number, its low byte first in the book. */
#define TASK(base, maximum) ((uint16_t)((base) + (maximum) * 256))
#define LOCK(ceiling, limit) ((uint32_t)(ceiling) + (uint32_t)(limit) * 65536)
#define USE(task, lock) ((uint16_t)((task) + (lock) * 256))
#define EVENT(kind, id, amount) ((uint32_t)(kind) + (uint32_t)(id) * 256 + (uint32_t)(amount) * 65536)

static const uint16_t tasks[] = {TASK(1, 5), TASK(3, 5), TASK(5, 5), TASK(7, 7)};
static const uint32_t locks[] = {LOCK(5, 4), LOCK(3, 10)};
static const uint16_t uses[] = {USE(0, 0), USE(0, 1), USE(1, 1), USE(2, 0)};
static const uint32_t events[] = {
    EVENT(RECORDER_RELEASE, 0, 0), EVENT(RECORDER_ACQUIRE, 0, 0), EVENT(RECORDER_RELEASE, 1, 0),
    EVENT(RECORDER_WORK, 0, 2),    EVENT(RECORDER_UNLOCK, 0, 0),  EVENT(RECORDER_FINISH, 0, 0),
    EVENT(RECORDER_FINISH, 0, 0),
};

static uint8_t book[RECORDER_MAX_BOOK];

int main(void) {
    struct recorder_write w = recorder_write(tasks, COUNT(tasks), locks, COUNT(locks), uses, COUNT(uses), events,
                                             COUNT(events), book, sizeof book);
    if (w.number != 0) {
        fprintf(stderr, "office: refused %u %zu\n", (unsigned)w.number, w.place);
        return 1;
    }
    return fwrite(book, 1, w.length, stdout) == w.length && fflush(stdout) == 0 ? 0 : 1;
}
