/* A recorder's kernel in small: loads its tasks from a table, and steps one event after the other. Build it so:
 *     tools/archive
 *     cc -Iinclude examples/kernel.c target/staticlib/libdevice.a -o kernel */
#include <stdio.h>

#include "recorder.h"

#define COUNT(list) (sizeof(list) / sizeof(list)[0])

struct event {
    uint8_t kind, id;
    uint16_t amount;
};

int main(void) {
    const struct recorder_task tasks[] = {{1, 5}, {3, 5}, {5, 5}, {7, 7}}; /* base, maximum */
    const uint32_t locks[] = {5 + 4 * 65536, 3 + 10 * 65536};
    const uint16_t uses[] = {0 + 0 * 256, 0 + 1 * 256, 1 + 1 * 256, 2 + 0 * 256};
    struct recorder_load load = recorder_load_table(tasks, COUNT(tasks), locks, COUNT(locks), uses, COUNT(uses));
    if (load.number != 0) {
        printf("refused %u %zu\n", (unsigned)load.number, load.place);
        return 1;
    }

    const struct event events[] = {
        {RECORDER_RELEASE, 0, 0}, {RECORDER_ACQUIRE, 0, 0}, {RECORDER_RELEASE, 1, 0}, {RECORDER_WORK, 0, 2},
        {RECORDER_UNLOCK, 0, 0},  {RECORDER_FINISH, 0, 0},  {RECORDER_FINISH, 0, 0},
    };
    struct recorder_state state = recorder_fresh();
    for (size_t k = 0; k < COUNT(events); k++) {
        const struct event *e = &events[k];
        struct recorder_step step = recorder_step(RECORDER_SECOND, load.plan, state, e->kind, e->id, e->amount);
        if (step.number != 0) {
            printf("refused %u %zu\n", (unsigned)step.number, k);
            return 1;
        }
        state = step.state;
        /* here a kernel runs the task `state.running` */
        printf("row %u %u %u %u\n", state.running, state.user, state.next, step.calls);
    }
    printf("calls %u %u\n", (unsigned)state.lazy, (unsigned)state.eager);
    return 0;
}
