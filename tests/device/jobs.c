/* Jobs that are read, and some that are refused: what is answered, and every byte of the event space. */
#include <stdio.h>
#include <string.h>

#include "recorder.h"

/* Room for nine events, 36 bytes, and four bytes more. */
static uint8_t space[40];

static void read_job(const char *text, size_t room) {
    memset(space, 0xEE, sizeof space);
    struct recorder_job j = recorder_read_job((const uint8_t *)text, strlen(text), space, room);
    printf("'%s' in %zu: %u %zu %zu\n", text, room, (unsigned)j.number, j.place, j.events);
    for (size_t i = 0; i < sizeof space; i++) printf("%s%02x%s", i % 8 ? " " : "  ", space[i], i % 8 == 7 ? "\n" : "");
}

/* The text `[0] [0] .. [0]` of a megabyte less one byte, and its events with a byte to spare: how many records are wrong. */
#define SECTIONS 262144
static uint8_t text[4 * SECTIONS];
static uint8_t events[4 * (2 * SECTIONS + 1) + 1];

static void read_long(void) {
    static const uint8_t record[3][4] = {{RECORDER_ACQUIRE}, {RECORDER_UNLOCK}, {RECORDER_FINISH}};
    for (size_t i = 0; i < SECTIONS; i++) memcpy(text + 4 * i, "[0] ", 4);
    memset(events, 0xEE, sizeof events);
    struct recorder_job j = recorder_read_job(text, sizeof text - 1, events, sizeof events);
    size_t wrong = 0;
    for (size_t i = 0; i < 2 * SECTIONS + 1; i++) wrong += memcmp(events + 4 * i, record[i < 2 * SECTIONS ? i % 2 : 2], 4) != 0;
    printf("%zu bytes: %u %zu %zu, %zu wrong, then %02x\n", sizeof text - 1, (unsigned)j.number, j.place, j.events, wrong,
           events[sizeof events - 1]);
    /* with the space after the last section it ends too soon */
    j = recorder_read_job(text, sizeof text, events, sizeof events);
    printf("%zu bytes: %u %zu %zu\n", sizeof text, (unsigned)j.number, j.place, j.events);
}

int main(void) {
    read_job("w2 [0 w1 [1 w2] w1]", sizeof space);
    read_job("w2 [0 w1 [1 w2] w1]", 36);
    read_job("w2 [0 w1 [1 w2] w1]", 35);
    read_job("w2 [0 w1 [1 w2] w1", 35);
    read_job("", 4);
    read_job("", 3);
    read_job("w65535 [31]", 39);
    read_job("[0 ]", sizeof space);
    read_job("w1  w2", 0);
    read_long();
    return 0;
}
