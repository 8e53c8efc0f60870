/* Checks and replays a book from C: `device [--first] [BOOK]`, or the book on standard input. Build it so:
 *     tools/archive
 *     cc -Iinclude examples/device.c target/staticlib/libdevice.a -o device */
#include <stdio.h>
#include <string.h>

#include "recorder.h"

/* One byte more than the longest book, so that a longer one is seen to be too long. */
static uint8_t book[RECORDER_MAX_BOOK + 1];
static uint8_t rows[RECORDER_MAX_EVENTS * RECORDER_ROW_BYTES];

int main(int count, char **words) {
    uint8_t protocol = RECORDER_SECOND;
    if (count > 1 && strcmp(words[1], "--first") == 0) {
        protocol = RECORDER_FIRST;
        count--;
        words++;
    }
    FILE *in = count > 1 ? fopen(words[1], "rb") : stdin;
    if (in == NULL) {
        perror(words[1]);
        return 2;
    }
    size_t length = fread(book, 1, sizeof book, in);

    struct recorder_check c = recorder_check(book, length, sizeof rows);
    printf("check %u %zu\n", (unsigned)c.number, c.place);
    printf("plan %zu %zu, events at %zu\n", c.plan.tasks, c.plan.locks, c.events);

    struct recorder_replay r = recorder_replay(protocol, book, length, rows, sizeof rows);
    const struct recorder_state *s = &r.state;
    for (uint32_t k = 0; k < s->accepted; k++) {
        const uint8_t *row = rows + k * RECORDER_ROW_BYTES;
        printf("row %u %u %u %u\n", row[0], row[1], row[2], row[3]);
    }
    printf("replay %u %zu\n", (unsigned)r.number, r.place);
    printf("accepted %u, running %u, words %u %u\n", (unsigned)s->accepted, s->running, s->user, s->next);
    printf("calls %u %u\n", (unsigned)s->lazy, (unsigned)s->eager);

    printf("delayed");
    for (size_t t = 0; t < r.plan.tasks; t++) printf(" %u", s->delay[t]);
    printf("\nbounds");
    for (size_t t = 0; t < c.plan.tasks; t++) printf(" %u", recorder_bound(book, length, t));
    printf("\n");
    return 0;
}
