/* Runs lists of events on this kernel, and says who ran after each event.
 *
 *     kernel [--patience MILLISECONDS] [--wrong stays|raises-nothing|forgets-again]
 *     kernel --can
 *
 * From standard input it takes requests as the program `batch` does, for a replay alone: u32 command (1), u32 protocol, u32
 * size, u32 room, then a book of `size` bytes; neither the protocol, which a kernel has of its own, nor the room is looked at. The
 * reply is u8 ending (threads.h), u32 how many events were taken, u8 who took it for each of these, u8 1 if the tasks' calls for
 * another priority were counted, and u32 how many. Numbers are little-endian. The end of the input ends the program.
 *
 * With --wrong it goes wrong on purpose. --can says in one line why this machine cannot run lists, and ends with 4 then. */
#define _GNU_SOURCE
#include <stdio.h>
#include <stdlib.h>
#include <string.h>
#include <sys/mman.h>

#include "calls.h"
#include "machine.h"
#include "watch.h"

enum { USAGE = 2, CANNOT = 4 };

struct options {
    bool asks;
    long patience;
    enum wrong wrong;
};

static void put(uint32_t value, int bytes) {
    for (int k = 0; k < bytes; k++) putchar((int)(value >> 8 * k & 255));
}

/* False where the reply cannot be written. */
static bool reply(const struct trace *trace) {
    put(trace->ending, 1);
    put(trace->taken, 4);
    fwrite(trace->who, 1, trace->taken, stdout);
    put(trace->is_counted, 1);
    put(trace->calls, 4);
    return fflush(stdout) == 0;
}

/* True at the end of the input, false for what is no request. */
static bool reply_to_all(const struct options *options, struct trace *trace) {
    enum { REPLAY = 1 };
    static uint8_t book[1 << 20];
    uint8_t head[16];
    size_t had;
    while ((had = fread(head, 1, sizeof head, stdin)) == sizeof head) {
        size_t size = four_bytes(head + 8);
        if (four_bytes(head) != REPLAY || size > sizeof book || fread(book, 1, size, stdin) != size) return false;
        struct list list;
        memset(trace, 0, sizeof *trace);
        if (list_of(book, size, &list)) {
            watch(&list, tasks_processor(), options->wrong, options->patience, trace);
        } else {
            trace->ending = UNABLE;
        }
        if (!reply(trace)) return false;
    }
    return had == 0;
}

static bool read_words(int count, char **words, struct options *options) {
    for (int k = 1; k < count; k++) {
        const char *value = k + 1 < count ? words[k + 1] : "";
        if (strcmp(words[k], "--can") == 0) {
            options->asks = true;
            continue;
        } else if (strcmp(words[k], "--patience") == 0 && atol(value) > 0) {
            options->patience = atol(value);
        } else if (strcmp(words[k], "--wrong") == 0 && strcmp(value, "stays") == 0) {
            options->wrong = STAYS;
        } else if (strcmp(words[k], "--wrong") == 0 && strcmp(value, "raises-nothing") == 0) {
            options->wrong = RAISES_NOTHING;
        } else if (strcmp(words[k], "--wrong") == 0 && strcmp(value, "forgets-again") == 0) {
            options->wrong = FORGETS_AGAIN;
        } else {
            return false;
        }
        k++; /* the value */
    }
    return true;
}

int main(int count, char **words) {
    struct options options = {.patience = 10000};
    if (!read_words(count, words, &options)) {
        fprintf(stderr, "usage: kernel [--patience MILLISECONDS] [--wrong stays|raises-nothing|forgets-again]\n"
                        "       kernel --can\n");
        return USAGE;
    }
    const char *lacks = machine_lacks();
    if (lacks) {
        printf("%s\n", lacks);
        return CANNOT;
    }
    if (options.asks) return 0;
    watch_begin();
    calls_begin();
    struct trace *trace = mmap(NULL, sizeof *trace, PROT_READ | PROT_WRITE, MAP_SHARED | MAP_ANONYMOUS, -1, 0);
    return trace != MAP_FAILED && reply_to_all(&options, trace) ? 0 : 1;
}
