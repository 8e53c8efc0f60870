/* Books that are written, and some that are refused: what is answered, and every byte of the buffer. */
#include <stdio.h>
#include <string.h>

#include "recorder.h"

#define COUNT(list) (sizeof(list) / sizeof(list)[0])

/* Room for a book of four tasks, two locks, seven uses and three events, 74 bytes, and some more. */
static uint8_t buffer[80];

static void fill(void) { memset(buffer, 0xEE, sizeof buffer); }

static void show(const char *what, struct recorder_write w) {
    printf("%s: %u %zu %zu\n", what, (unsigned)w.number, w.place, w.length);
    for (size_t i = 0; i < sizeof buffer; i++) printf("%s%02x%s", i % 16 ? " " : "  ", buffer[i], i % 16 == 15 ? "\n" : "");
}

/* The crane plan, but for its last use and its first lock: a book of 68 bytes with three events. */
static void write(const char *what, uint16_t last_use, uint32_t first_lock, const uint32_t *events, size_t count, size_t room) {
    const uint16_t tasks[] = {1 + 5 * 256, 3 + 5 * 256, 5 + 5 * 256, 7 + 7 * 256};
    const uint32_t locks[] = {first_lock, 3 + 10 * 65536};
    const uint16_t uses[] = {0 + 0 * 256, 0 + 1 * 256, 1 + 1 * 256, last_use};
    fill();
    show(what, recorder_write(tasks, COUNT(tasks), locks, COUNT(locks), uses, COUNT(uses), events, count, buffer, room));
}

/* The plan that figures.c tries too, with these maxima, and three events: tasks 0, 1 and 3 may take lock 0, of ceiling 3, and
 * all may take lock 1, of ceiling 7. */
static void write_maxima(const char *what, uint8_t a, uint8_t b, uint8_t c, uint8_t d, const uint32_t *events, size_t room) {
    const uint16_t tasks[] = {1 + a * 256, 3 + b * 256, 7 + c * 256, 2 + d * 256};
    const uint32_t locks[] = {3 + 1 * 65536, 7 + 9 * 65536};
    const uint16_t uses[] = {0 + 0 * 256, 0 + 1 * 256, 1 + 0 * 256, 1 + 1 * 256, 2 + 1 * 256, 3 + 0 * 256, 3 + 1 * 256};
    fill();
    show(what, recorder_write(tasks, COUNT(tasks), locks, COUNT(locks), uses, COUNT(uses), events, 3, buffer, room));
}

int main(void) {
    const uint16_t use = 2 + 0 * 256;
    const uint32_t lock = 5 + 4 * 65536;
    const uint32_t events[] = {1 + 3 * 256, 4 + 258 * 65536, 5};
    const uint32_t wrong[] = {1 + 3 * 256, 4 + 258 * 65536, 5 + 1 * 65536};
    const uint32_t none[] = {0};
    write("with room", use, lock, events, COUNT(events), sizeof buffer);
    write("no byte left", use, lock, events, COUNT(events), 68);
    write("a byte short", use, lock, events, COUNT(events), 67);
    write("no room", use, lock, events, COUNT(events), 0);
    write("no events", use, lock, none, 0, sizeof buffer);
    write("a finish with an amount", use, lock, wrong, COUNT(wrong), sizeof buffer);
    write("the same, a byte short", use, lock, wrong, COUNT(wrong), 67);
    write("a ceiling of 4", use, 4 + 4 * 65536, wrong, COUNT(wrong), sizeof buffer);
    /* task 2 uses lock 1: lock 0 has one user, whose base is its ceiling, and lock 1 another ceiling than task 2's base */
    write("one user of lock 0", 2 + 1 * 256, 1 + 4 * 65536, events, COUNT(events), sizeof buffer);
    write("a use of no lock", 2 + 2 * 256, 4 + 4 * 65536, wrong, COUNT(wrong), sizeof buffer);
    write("a ceiling of 8, above the users' maxima", use, 8 + 4 * 65536, wrong, COUNT(wrong), sizeof buffer);
    write_maxima("maxima", 7, 8, 7, 255, events, sizeof buffer);
    write_maxima("a maximum below its base", 7, 7, 7, 1, events, sizeof buffer);
    write_maxima("the same, use 1 above its task's maximum", 6, 7, 7, 1, wrong, 0);
    write_maxima("use 0 above its task's maximum", 2, 7, 7, 7, events, sizeof buffer);
    write_maxima("use 3 above its task's maximum", 7, 6, 7, 7, events, sizeof buffer);
    write_maxima("use 6 above its task's maximum", 7, 7, 7, 6, events, sizeof buffer);
    write_maxima("uses 3, 5 and 6 above their tasks' maxima", 7, 6, 7, 2, events, sizeof buffer);
    write_maxima("the same, a finish with an amount", 7, 6, 7, 2, wrong, sizeof buffer);
    write_maxima("the same, no room", 7, 6, 7, 2, wrong, 0);
    return 0;
}
