/* How much stack each function of the library needs.
 *
 * Each call is made on a stack of its own that was filled with one byte throughout. Afterwards the lowest byte that is
 * no longer so is looked for. What is counted reaches from there up to and with the return address that the call put
 * there: so all that the function and whatever it calls (memcpy and memset of the C library too) wrote below the call.
 * Its arguments and its answer, where they lie in the caller's own memory, are said beside it. Each call is made twice,
 * with two bytes that differ in every bit, and the greater number counts. For a function the greatest of its calls is
 * printed, on the largest inputs that there are and by both protocols. */
#define _GNU_SOURCE
#include <stdint.h>
#include <stdio.h>
#include <stdlib.h>
#include <string.h>
#include <ucontext.h>

#include "recorder.h"

#define COUNT(list) (sizeof(list) / sizeof(list)[0])

/* ---- the measure */

#define STACK 262144

static uint8_t stack[STACK] __attribute__((aligned(64)));
static ucontext_t here, there;

/* A function is called by way of this: it notes where the return address lies, and jumps on to `target`, with all
 * registers and the stack as they are. */
void (*target)(void);
uint8_t *at_call;
void noted(void);
__asm__(".text\n"
        "noted:\n"
        "    movq %rsp, at_call(%rip)\n"
        "    jmpq *target(%rip)\n");

/* The bytes that the call in `caller` needs. */
static size_t once(void (*caller)(void), uint8_t fill) {
    memset(stack, fill, sizeof stack);
    getcontext(&there);
    there.uc_stack.ss_sp = stack;
    there.uc_stack.ss_size = sizeof stack;
    there.uc_link = &here;
    makecontext(&there, caller, 0);
    swapcontext(&here, &there);
    size_t low = 0;
    while (stack[low] == fill) low++;
    if (low < 4096) {
        printf("the stack of the measure is too small\n");
        exit(1);
    }
    return (size_t)(at_call + 8 - (stack + low));
}

static size_t most(size_t so_far, void (*caller)(void), void (*function)(void)) {
    target = function;
    size_t a = once(caller, 0xA5);
    size_t b = once(caller, 0x5A);
    if (a < b) a = b;
    return so_far < a ? a : so_far;
}

/* ---- the largest inputs */

#define TAKES sizeof(uint64_t) /* a row has a byte for each take */

static uint8_t book[RECORDER_MAX_BOOK];
static size_t length;
static uint8_t rows[RECORDER_MAX_EVENTS * RECORDER_ROW_BYTES];
static struct recorder_task tasks[RECORDER_MAX_TASKS];
static uint16_t task_numbers[RECORDER_MAX_TASKS];
static uint32_t locks[RECORDER_MAX_LOCKS];
static uint16_t uses[RECORDER_MAX_USES];
static uint32_t events[RECORDER_MAX_EVENTS];

/* The events of the book: task 0 takes a lock twice and gives it back; it takes as many locks as it may; all others are
 * released, and wait; it works and gives its locks back; and all finish. Then again. */
static const struct {
    uint8_t kind, amount;
    size_t first; /* the id of the first, and of the others in turn upwards or downwards */
    int by;
    size_t count;
} parts[] = {
    {RECORDER_RELEASE, 0, 0, 0, 1},
    {RECORDER_ACQUIRE, 0, 0, 0, 2},
    {RECORDER_UNLOCK, 0, 0, 0, 2},
    {RECORDER_ACQUIRE, 0, 0, 1, TAKES},
    {RECORDER_RELEASE, 0, 1, 1, RECORDER_MAX_TASKS - 1},
    {RECORDER_WORK, 3, 0, 0, 1},
    {RECORDER_TICK, 0, 0, 0, 1},
    {RECORDER_UNLOCK, 0, TAKES - 1, -1, TAKES},
    {RECORDER_FINISH, 0, 0, 0, RECORDER_MAX_TASKS},
};

/* An event's record as a number. */
static uint32_t number(size_t kind, size_t id, size_t amount) { return (uint32_t)(kind + id * 256 + amount * 65536); }

/* Event k of the book. */
static uint32_t event_at(size_t k) {
    size_t p = 0;
    for (; k >= parts[p].count; p = (p + 1) % COUNT(parts)) k -= parts[p].count;
    return number(parts[p].kind, parts[p].first + k * (size_t)parts[p].by, parts[p].amount);
}

/* As many tasks, locks, uses and events as there can be, in a table and in a book: every task may take every lock, so all
 * have the one ceiling, the highest base, as their maximum. */
static void fill(void) {
    for (size_t t = 0; t < COUNT(tasks); t++) {
        tasks[t] = (struct recorder_task){(uint8_t)(t + 1), RECORDER_MAX_TASKS};
        task_numbers[t] = (uint16_t)(t + 1 + RECORDER_MAX_TASKS * 256);
    }
    for (size_t l = 0; l < COUNT(locks); l++) locks[l] = RECORDER_MAX_TASKS + 65535u * 65536u;
    for (size_t u = 0; u < COUNT(uses); u++) uses[u] = (uint16_t)(u / COUNT(locks) + u % COUNT(locks) * 256);
    for (size_t k = 0; k < COUNT(events); k++) events[k] = event_at(k);
}

/* ---- a call of each function */

static uint8_t protocol;
static struct recorder_plan plan;
static struct recorder_state state;
static uint32_t event;
static size_t task;

/* The answer stays on the stack of the measure, above the call. */
#define WANTED(answer) __asm__ volatile("" : : "r"(&(answer)) : "memory")

static void call_check(void) {
    __typeof__(&recorder_check) f = (void *)noted;
    struct recorder_check answer = f(book, length, sizeof rows);
    WANTED(answer);
}

static void call_load(void) {
    __typeof__(&recorder_load_table) f = (void *)noted;
    struct recorder_load answer = f(tasks, COUNT(tasks), locks, COUNT(locks), uses, COUNT(uses));
    WANTED(answer);
}

static struct recorder_write write_book(__typeof__(&recorder_write) f) {
    return f(task_numbers, COUNT(task_numbers), locks, COUNT(locks), uses, COUNT(uses), events, COUNT(events), book,
             sizeof book);
}

static void call_write(void) {
    struct recorder_write answer = write_book((void *)noted);
    WANTED(answer);
}

static void call_fresh(void) {
    __typeof__(&recorder_fresh) f = (void *)noted;
    struct recorder_state answer = f();
    WANTED(answer);
}

static void call_step(void) {
    __typeof__(&recorder_step) f = (void *)noted;
    struct recorder_step answer = f(protocol, plan, state, event % 256, event / 256 % 256, event / 65536);
    WANTED(answer);
}

static void call_replay(void) {
    __typeof__(&recorder_replay) f = (void *)noted;
    struct recorder_replay answer = f(protocol, book, length, rows, sizeof rows);
    WANTED(answer);
}

static void call_bound(void) {
    __typeof__(&recorder_bound) f = (void *)noted;
    uint16_t answer = f(book, length, task);
    WANTED(answer);
}

/* A text of sections eight deep again and again, as far as it is read. */
static const char deep[] = "[0 [1 [2 [3 [4 [5 [6 [7 w1]]]]]]]] ";
static uint8_t text[2000 * (sizeof deep - 1)];
static size_t text_length;

static void call_job(void) {
    __typeof__(&recorder_read_job) f = (void *)noted;
    struct recorder_job answer = f(text, text_length, rows, sizeof rows);
    WANTED(answer);
}

static void say(const char *name, size_t bytes, size_t arguments, size_t answer) {
    printf("%-20s %7zu %9zu %7zu\n", name, bytes, arguments, answer);
}

int main(void) {
    fill();
    length = write_book(recorder_write).length;
    plan = recorder_load_table(tasks, COUNT(tasks), locks, COUNT(locks), uses, COUNT(uses)).plan;
    for (protocol = RECORDER_FIRST; protocol <= RECORDER_SECOND; protocol++) {
        struct recorder_replay whole = recorder_replay(protocol, book, length, rows, sizeof rows);
        if (length != RECORDER_MAX_BOOK || plan.tasks != RECORDER_MAX_TASKS ||
            whole.state.accepted != RECORDER_MAX_EVENTS) {
            printf("the library refuses the largest book\n");
            return 1;
        }
    }

    /* the largest book; and one that is refused at its last event, and one that is refused at once */
    size_t check = 0, replay = 0, bound = 0;
    for (int k = 0; k < 3; k++) {
        if (k == 1) book[length - 4] = 7;
        if (k == 2) length = 31;
        check = most(check, call_check, (void (*)(void))recorder_check);
        for (protocol = RECORDER_FIRST; protocol <= RECORDER_SECOND; protocol++) {
            replay = most(replay, call_replay, (void (*)(void))recorder_replay);
        }
        for (task = 0; task <= RECORDER_MAX_TASKS; task++) {
            bound = most(bound, call_bound, (void (*)(void))recorder_bound);
        }
    }
    size_t load = most(0, call_load, (void (*)(void))recorder_load_table);
    size_t write = most(0, call_write, (void (*)(void))recorder_write);
    size_t fresh = most(0, call_fresh, (void (*)(void))recorder_fresh);

    /* jobs: none, sections eight deep, many of them, many that end with a space, and a ninth level */
    size_t job = 0;
    for (size_t k = 0; k + sizeof deep - 1 <= sizeof text; k += sizeof deep - 1) memcpy(text + k, deep, sizeof deep - 1);
    const size_t lengths[] = {0, sizeof deep - 2, 700 * (sizeof deep - 1) - 1, sizeof text};
    for (size_t k = 0; k < COUNT(lengths); k++) {
        text_length = lengths[k];
        if (recorder_read_job(text, text_length, rows, sizeof rows).number != (k < 3 ? 0 : 25)) {
            printf("the library reads a job otherwise\n");
            return 1;
        }
        job = most(job, call_job, (void (*)(void))recorder_read_job);
    }
    memcpy(text + 24, "[8", 2);
    job = most(job, call_job, (void (*)(void))recorder_read_job);

    /* the largest book's events until nobody runs again, each as a step; and from each state one event of every kind,
     * most of them refused, and one that is none */
    size_t step = 0;
    for (protocol = RECORDER_FIRST; protocol <= RECORDER_SECOND; protocol++) {
        size_t k = 0;
        state = recorder_fresh();
        do {
            for (uint8_t kind = 0; kind <= RECORDER_TICK; kind++) {
                event = number(kind, 0, kind == RECORDER_WORK);
                step = most(step, call_step, (void (*)(void))recorder_step);
            }
            event = event_at(k++);
            step = most(step, call_step, (void (*)(void))recorder_step);
            struct recorder_step s =
                recorder_step(protocol, plan, state, event % 256, event / 256 % 256, event / 65536);
            if (s.number != 0) {
                printf("the library refuses an event of the largest book\n");
                return 1;
            }
            state = s.state;
        } while (state.running != RECORDER_NOBODY);
    }

    /* what no scheduler can be in: every task has more takes than a row has bytes */
    memset(&state, 255, sizeof state);
    size_t any_step = step;
    for (protocol = RECORDER_FIRST; protocol <= RECORDER_SECOND; protocol++) {
        any_step = most(any_step, call_step, (void (*)(void))recorder_step);
    }

    printf("bytes of stack below the call; by value among the arguments; and the answer\n");
    printf("%-20s %7s %9s %7s\n", "", "stack", "by value", "answer");
    say("recorder_check", check, 0, sizeof(struct recorder_check));
    say("recorder_load_table", load, 0, sizeof(struct recorder_load));
    say("recorder_write", write, 0, sizeof(struct recorder_write));
    say("recorder_fresh", fresh, 0, sizeof(struct recorder_state));
    say("recorder_step", any_step, sizeof plan + sizeof state, sizeof(struct recorder_step));
    say("  of a sound state", step, sizeof plan + sizeof state, sizeof(struct recorder_step));
    say("recorder_replay", replay, 0, sizeof(struct recorder_replay));
    say("recorder_bound", bound, 0, sizeof(uint16_t));
    say("recorder_read_job", job, 0, sizeof(struct recorder_job));
    return 0;
}
