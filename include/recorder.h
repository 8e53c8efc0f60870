/* The recorder's library: target/staticlib/libdevice.a, as `tools/archive` writes it for x86-64 Linux.
 *
 * A slice is passed as its address and its length in elements. An address is never null, also where the length is 0;
 * the library keeps none of them after it returns. Rows, a buffer and event space overlap nothing else that is passed.
 * A plan and a state are passed and returned by value: the library keeps nothing between two calls.
 * No function fails otherwise than by the number that it returns, whatever it is handed. docs/RULES.md has the numbers,
 * 1 to 26 without 16, in its section 5, and what each function takes and answers in its section 16. */
#ifndef RECORDER_H
#define RECORDER_H

#include <stddef.h>
#include <stdint.h>

#ifdef __cplusplus
extern "C" {
#endif

/* The greatest numbers of tasks, locks, uses and events, and what a row takes. */
#define RECORDER_MAX_TASKS 200
#define RECORDER_MAX_LOCKS 32
#define RECORDER_MAX_USES 6400
#define RECORDER_MAX_EVENTS 12000
#define RECORDER_ROW_BYTES 4

/* The length of the longest book that can be accepted. */
#define RECORDER_MAX_BOOK 61360

/* The running task's byte where nobody runs. */
#define RECORDER_NOBODY 255

/* The lazy protocols, by their numbers. Where a protocol is asked for, 1 is the first and every other number the second.
 * A state belongs to the protocol that made it: the second word of a state is a next word or a kernel word. */
#define RECORDER_SECOND 2 /* next word: the greatest priority of the other released tasks */
#define RECORDER_FIRST 1  /* kernel word: the user word at the latest entry to the kernel */

/* A plan. A task or a lock is its place, from 0. Places past the last one hold 0. A lock has two users or more, and the
 * highest of their bases as its ceiling; otherwise it is refused by 7. A task's maximum is at least its base, otherwise it
 * is refused by 4, and at least the ceiling of each lock that it may take, otherwise that use is refused by 24. Where the
 * plan comes with a state, all these are refused by 10. */
struct recorder_plan {
    size_t tasks;
    size_t locks;
    uint8_t base[RECORDER_MAX_TASKS];    /* each task's base */
    uint8_t maximum[RECORDER_MAX_TASKS]; /* the highest priority that it may have */
    uint8_t ceiling[RECORDER_MAX_LOCKS]; /* each lock's ceiling */
    uint16_t limit[RECORDER_MAX_LOCKS];  /* each lock's section limit */
    uint32_t uses[RECORDER_MAX_TASKS];   /* bit l of a task's: it may take lock l */
};

/* A state. A row is a number in base 256, newest first. A take goes from an accepted acquire to the unlock that gives it
 * back; a task has eight at most. One lock may stand in a row more than once, and is open for its task until the last of
 * these takes is given back. */
struct recorder_state {
    uint32_t accepted; /* how many events were accepted */
    uint8_t running;   /* the running task, or RECORDER_NOBODY */
    uint8_t user;      /* the user word */
    uint8_t next;      /* the second word: the next word, or the kernel word */
    uint32_t lazy;     /* the lazy scheduler's calls */
    uint32_t eager;    /* the eager scheduler's calls: acquires and unlocks that changed their task's priority */
    uint32_t released[RECORDER_MAX_TASKS]; /* each task's release number; 0 where it is not released */
    uint8_t kept[RECORDER_MAX_TASKS];      /* the priority that the kernel keeps for it */
    uint16_t delay[RECORDER_MAX_TASKS];    /* its delay */
    uint8_t depth[RECORDER_MAX_TASKS];     /* how many takes it has */
    uint64_t takes[RECORDER_MAX_TASKS];    /* the row of these takes, each by its lock */
    uint64_t saved[RECORDER_MAX_TASKS];    /* the row of the user words saved at them */
    uint16_t units[RECORDER_MAX_LOCKS];    /* the units of each lock's open section */
    uint8_t owner[RECORDER_MAX_LOCKS];     /* the task that has it open, plus 1, or 0 */
};

/* What a check answers. */
struct recorder_check {
    uint8_t number;            /* the refusal, 1 to 9 or 24; 0 where nothing is refused */
    size_t place;              /* the place of its first offender */
    struct recorder_plan plan; /* the book's; every figure is 0 beside a refusal */
    size_t events;             /* where the event body starts in the book; 0 beside a refusal */
};

/* What a replay answers. */
struct recorder_replay {
    uint8_t number;              /* the refusal, 1 to 15, 17 to 22 or 24; 0 where nothing is refused */
    size_t place;                /* its place: of an event, from 0; of 1 to 9 and 24, as a check gives it */
    struct recorder_plan plan;   /* the book's; every figure is 0 where the book is refused */
    struct recorder_state state; /* where the replay stopped; a fresh one where the book is refused */
};

/* A record of the device's table of tasks. */
struct recorder_task {
    uint8_t base;    /* 1 to 255 */
    uint8_t maximum; /* base to 255 */
};

/* What a load answers. */
struct recorder_load {
    uint8_t number;            /* the refusal: 2, 4 to 7 or 24; 0 where nothing is refused */
    size_t place;              /* the place of its first offender */
    struct recorder_plan plan; /* every figure is 0 beside a refusal */
};

/* What a write answers. */
struct recorder_write {
    uint8_t number; /* the refusal: 2, 4 to 8, 23 or 24; 0 where nothing is refused */
    size_t place;   /* the place of its first offender */
    size_t length;  /* the book's; 0 beside a refusal */
};

/* What the reading of a job answers. */
struct recorder_job {
    uint8_t number; /* the refusal: 25 or 26; 0 where nothing is refused */
    size_t place;   /* of 25: the first byte of the text with which no job goes on, or the text's length */
    size_t events;  /* how many events the job has; 0 beside a refusal */
};

/* The kinds of event, and what each is about. */
#define RECORDER_RELEASE 1 /* id: a task */
#define RECORDER_ACQUIRE 2 /* id: a lock */
#define RECORDER_UNLOCK 3  /* id: a lock */
#define RECORDER_WORK 4    /* amount: units */
#define RECORDER_FINISH 5
#define RECORDER_TICK 6

/* What a step answers. */
struct recorder_step {
    uint8_t number;              /* the refusal: 8, 10 to 15 or 17 to 22; 0 where the event is accepted */
    uint8_t calls;               /* 1 where the lazy scheduler calls the kernel, or else 0 */
    struct recorder_state state; /* after the event; the state that was given where it is refused */
};

/* Checks a book, 1 to 9 and 24, for a replay with `room` bytes of row space. 24 comes after 7 and before 8. */
struct recorder_check recorder_check(const uint8_t *book, size_t length, size_t room);

/* Loads a plan from a table of tasks: one number for a lock, ceiling + limit * 65536, and one for a use,
 * task + lock * 256. */
struct recorder_load recorder_load_table(const struct recorder_task *tasks, size_t task_count, const uint32_t *locks,
                                         size_t lock_count, const uint16_t *uses, size_t use_count);

/* Writes a book into a buffer of `room` bytes, from its records, one number for each: a task's base + maximum * 256; a
 * lock's ceiling + limit * 65536; a use's task + lock * 256; an event's kind + id * 256 + amount * 65536. Where something
 * is refused no byte of the buffer changes, else none after the book. RECORDER_MAX_BOOK bytes are always enough; with
 * fewer than the book has it is refused by 23. */
struct recorder_write recorder_write(const uint16_t *tasks, size_t task_count, const uint32_t *locks, size_t lock_count,
                                     const uint16_t *uses, size_t use_count, const uint32_t *events, size_t event_count,
                                     uint8_t *buffer, size_t room);

/* The state before the first event. */
struct recorder_state recorder_fresh(void);

/* Steps one event of a kind by a protocol; what the kind does not use is 0, or it is refused by 8. Work of 0 units is an
 * event, which 20 refuses. Plan and state may be anything: what no scheduler of the protocol can be in is refused by 10. */
struct recorder_step recorder_step(uint8_t protocol, struct recorder_plan plan, struct recorder_state state, uint8_t kind,
                                   uint8_t id, uint16_t amount);

/* Replays a book by a protocol up to its first refusal. The accepted event at place k has the four row bytes from 4 * k
 * on: who runs after it, the user word, the second word, and whether it was a lazy call, as 1 or 0. No other row byte
 * changes. */
struct recorder_replay recorder_replay(uint8_t protocol, const uint8_t *book, size_t length, uint8_t *rows, size_t room);

/* Reads the text of a job, such as `w2 [0 w1 [1 w2] w1]`: work of 2 units, a section of lock 0, in it a section of lock 1, and
 * a finish. Its events stand at the start of a space of `room` bytes then, four bytes each: kind, id, and the amount's low
 * and high byte. A text that is no job's is refused by 25, and then too little space by 26; where something is refused no
 * byte of the space changes, else none after the events. 2 * length + 6 bytes are always enough. */
struct recorder_job recorder_read_job(const uint8_t *text, size_t length, uint8_t *space, size_t room);

/* The bound on the delay of a task of the book's plan; 0 for any other task, and for a book that is refused. */
uint16_t recorder_bound(const uint8_t *book, size_t length, size_t task);

#ifdef __cplusplus
}
#endif

#endif
