/* Every figure of a plan and of a state, as the library and C lay them out; and plans and steps that are refused. */
#include <inttypes.h>
#include <stdio.h>
#include <string.h>

#include "recorder.h"

#define COUNT(list) (sizeof(list) / sizeof(list)[0])

/* Each array with all its places, and of the equal ones at its end only the first: "0.." is 0 up to the last place. */
#define SHOW(what, list)                                                             \
    do {                                                                             \
        size_t last = COUNT(list) - 1;                                               \
        while (last > 0 && (list)[last - 1] == (list)[last]) last--;                 \
        printf("  %s", what);                                                        \
        for (size_t i = 0; i <= last; i++) printf(" %" PRIu64, (uint64_t)(list)[i]); \
        printf("%s\n", last + 1 < COUNT(list) ? ".." : "");                          \
    } while (0)

static struct recorder_load load(uint32_t ceiling) {
    const struct recorder_task tasks[] = {{1, 5}, {3, 5}, {5, 5}, {7, 7}};
    const uint32_t locks[] = {5 + 4 * 65536, ceiling + 10 * 65536};
    const uint16_t uses[] = {0 + 0 * 256, 0 + 1 * 256, 1 + 1 * 256, 2 + 0 * 256};
    struct recorder_load l = recorder_load_table(tasks, COUNT(tasks), locks, COUNT(locks), uses, COUNT(uses));
    printf("load %u %zu\n", (unsigned)l.number, l.place);
    printf("  tasks %zu locks %zu\n", l.plan.tasks, l.plan.locks);
    SHOW("base", l.plan.base);
    SHOW("maximum", l.plan.maximum);
    SHOW("ceiling", l.plan.ceiling);
    SHOW("limit", l.plan.limit);
    SHOW("uses", l.plan.uses);
    return l;
}

static void show(const struct recorder_state *s) {
    printf("  accepted %u running %u words %u %u calls %u %u\n", (unsigned)s->accepted, s->running, s->user, s->next,
           (unsigned)s->lazy, (unsigned)s->eager);
    SHOW("released", s->released);
    SHOW("kept", s->kept);
    SHOW("delay", s->delay);
    SHOW("depth", s->depth);
    SHOW("takes", s->takes);
    SHOW("saved", s->saved);
    SHOW("units", s->units);
    SHOW("owner", s->owner);
}

static struct recorder_state step(struct recorder_plan plan, struct recorder_state s, uint8_t kind, uint8_t id,
                                  uint16_t amount) {
    struct recorder_step r = recorder_step(RECORDER_SECOND, plan, s, kind, id, amount);
    printf("step %u %u %u: %u %u\n", kind, id, amount, r.number, r.calls);
    return r.state;
}

/* The same by a protocol that is named, with the words after it. */
static struct recorder_state step_by(uint8_t protocol, struct recorder_plan plan, struct recorder_state s, uint8_t kind,
                                     uint8_t id) {
    struct recorder_step r = recorder_step(protocol, plan, s, kind, id, 0);
    printf("by %u step %u %u: %u %u words %u %u\n", protocol, kind, id, r.number, r.calls, r.state.user, r.state.next);
    return r.state;
}

/* The crane plan with other uses: what its load answers, and a tick in a fresh state of the plan with these uses. */
static void load_uses(const struct recorder_plan *crane, const uint16_t *uses, size_t count) {
    const struct recorder_task tasks[] = {{1, 5}, {3, 5}, {5, 5}, {7, 7}};
    const uint32_t locks[] = {5 + 4 * 65536, 3 + 10 * 65536};
    struct recorder_load l = recorder_load_table(tasks, COUNT(tasks), locks, COUNT(locks), uses, count);
    struct recorder_plan plan = *crane;
    for (size_t task = 0; task < COUNT(tasks); task++) plan.uses[task] = 0;
    for (size_t i = 0; i < count; i++) plan.uses[uses[i] % 256] |= 1u << uses[i] / 256;
    struct recorder_step r = recorder_step(RECORDER_SECOND, plan, recorder_fresh(), RECORDER_TICK, 0, 0);
    printf("uses");
    for (size_t i = 0; i < count; i++) printf(" %u-%u", uses[i] % 256u, uses[i] / 256u);
    printf(": load %u %zu tasks %zu, tick %u\n", (unsigned)l.number, l.place, l.plan.tasks, r.number);
}

/* Two users for each lock; lock 0 without any, with the one whose base is its ceiling, and with the other one; the same
 * of lock 1; both users of lock 0 and one more. */
static void users(const struct recorder_plan *crane) {
    enum { A0 = 0, A1 = 0 + 1 * 256, B0 = 1, B1 = 1 + 1 * 256, C0 = 2 };
    load_uses(crane, (const uint16_t[]){A0, A1, B1, C0}, 4);
    load_uses(crane, (const uint16_t[]){A1, B1}, 2);
    load_uses(crane, (const uint16_t[]){A1, B1, C0}, 3);
    load_uses(crane, (const uint16_t[]){A0, A1, B1}, 3);
    load_uses(crane, (const uint16_t[]){A0, C0}, 2);
    load_uses(crane, (const uint16_t[]){A0, B1, C0}, 3);
    load_uses(crane, (const uint16_t[]){A0, A1, C0}, 3);
    load_uses(crane, (const uint16_t[]){A0, A1, B0, B1, C0}, 5);
}

/* A plan of four tasks and two locks, as a book with one event. Tasks 0, 1 and 3 may take lock 0, and all may take lock 1. All
 * maxima are 7, and none may be less. */
static const uint8_t right[] = {
    1, 0, 4, 0, 32, 0, 0, 0, 2, 0, 2, 0, 40, 0, 0, 0, 3, 0, 7, 0, 48, 0, 0, 0, 4, 0, 1, 0, 62, 0, 0, 0, /* contents */
    1, 7, 3, 7, 7, 7, 2, 7,                   /* tasks: base, maximum */
    3, 0, 1, 0, 7, 0, 9, 0,                   /* locks: ceiling, 0, limit */
    0, 0, 0, 1, 1, 0, 1, 1, 2, 1, 3, 0, 3, 1, /* uses 0 to 6: task, lock */
    6, 0, 0, 0,                               /* a tick */
};
enum { TASKS = 4, LOCKS = 2, USES = 7, TASKS_AT = 32, LOCKS_AT = 40, EVENT_AT = 62 };

/* What a load of the records of such a book answers. */
static struct recorder_load load_records(const uint8_t *book) {
    struct recorder_task tasks[TASKS];
    uint32_t locks[LOCKS];
    uint16_t uses[USES];
    const uint8_t *at = book + TASKS_AT;
    for (size_t k = 0; k < TASKS; k++, at += 2) tasks[k] = (struct recorder_task){at[0], at[1]};
    for (size_t k = 0; k < LOCKS; k++, at += 4) locks[k] = at[0] + at[2] * 65536u;
    for (size_t k = 0; k < USES; k++, at += 2) uses[k] = (uint16_t)(at[0] + at[1] * 256);
    return recorder_load_table(tasks, TASKS, locks, LOCKS, uses, USES);
}

/* A tick in a fresh state of the plan, by the second protocol and by the first. */
static void tick(const struct recorder_plan *plan) {
    unsigned second = recorder_step(RECORDER_SECOND, *plan, recorder_fresh(), RECORDER_TICK, 0, 0).number;
    unsigned first = recorder_step(RECORDER_FIRST, *plan, recorder_fresh(), RECORDER_TICK, 0, 0).number;
    printf("tick %u %u\n", second, first);
}

/* The same with another maximum of one task. */
static void tick_with(const struct recorder_plan *plan, size_t task, uint8_t maximum) {
    struct recorder_plan other = *plan;
    other.maximum[task] = maximum;
    tick(&other);
}

/* The plan with other maxima and another ceiling of lock 1, and another kind of event. What is answered to a load of its
 * records; to its book, by a check with row space and without, by a replay and for the bound of task 2; and to a tick. */
static void try_maxima(uint8_t a, uint8_t b, uint8_t c, uint8_t d, uint8_t ceiling, uint8_t kind) {
    const uint8_t given[TASKS] = {a, b, c, d};
    struct recorder_plan plan = load_records(right).plan;
    uint8_t book[sizeof right], rows[RECORDER_ROW_BYTES];
    memcpy(book, right, sizeof book);
    for (size_t task = 0; task < TASKS; task++) plan.maximum[task] = book[TASKS_AT + 2 * task + 1] = given[task];
    plan.ceiling[1] = book[LOCKS_AT + 4] = ceiling;
    book[EVENT_AT] = kind;
    struct recorder_load l = load_records(book);
    struct recorder_check with = recorder_check(book, sizeof book, sizeof rows);
    struct recorder_check without = recorder_check(book, sizeof book, 0);
    struct recorder_replay r = recorder_replay(RECORDER_SECOND, book, sizeof book, rows, sizeof rows);
    printf("maxima %u %u %u %u, ceiling %u, event %u: ", a, b, c, d, ceiling, kind);
    printf("load %u %zu, check %u %zu, without rows %u %zu, ", l.number, l.place, with.number, with.place, without.number,
           without.place);
    printf("replay %u %zu, bound %u, ", r.number, r.place, recorder_bound(book, sizeof book, 2));
    tick(&plan);
    if (r.number != 0) return;
    SHOW("load", l.plan.maximum);
    SHOW("check", with.plan.maximum);
    SHOW("replay", r.plan.maximum);
}

static void maxima(const struct recorder_plan *crane) {
    try_maxima(7, 7, 7, 7, 7, RECORDER_TICK);
    try_maxima(255, 8, 7, 9, 7, RECORDER_TICK);
    /* below the ceiling of a lock that the task may take: at use 0, 1, 3, 5 and 6, and at 1 and 6 */
    try_maxima(2, 7, 7, 7, 7, RECORDER_TICK);
    try_maxima(3, 7, 7, 7, 7, RECORDER_TICK);
    try_maxima(7, 6, 7, 7, 7, RECORDER_TICK);
    try_maxima(7, 7, 7, 2, 7, RECORDER_TICK);
    try_maxima(7, 7, 7, 6, 7, RECORDER_TICK);
    try_maxima(6, 7, 7, 6, 7, RECORDER_TICK);
    /* below the base; the last has a ceiling above a maximum too, of a task before it */
    try_maxima(0, 7, 7, 7, 7, RECORDER_TICK);
    try_maxima(7, 7, 6, 7, 7, RECORDER_TICK);
    try_maxima(7, 7, 7, 1, 7, RECORDER_TICK);
    try_maxima(6, 2, 7, 7, 7, RECORDER_TICK);
    /* a ceiling that is not the highest base, and above all maxima; what is no event, alone and beside use 3 */
    try_maxima(7, 7, 7, 7, 8, RECORDER_TICK);
    try_maxima(7, 7, 7, 7, 7, 7);
    try_maxima(7, 6, 7, 7, 7, 7);

    /* plans that no load gives, with one maximum changed */
    printf("task 3, which may take no lock, below its base: ");
    tick_with(crane, 3, 6);
    printf("the first place past the last task: ");
    tick_with(crane, 4, 1);
    printf("the last place: ");
    tick_with(crane, RECORDER_MAX_TASKS - 1, 1);
}

/* The most tasks and uses, and one more: tasks of base 1, of which every one uses each of 32 locks, in turn. The last that
 * there can be has another maximum than the others. */
static struct recorder_plan load_many(size_t task_count, size_t use_count) {
    static struct recorder_task tasks[RECORDER_MAX_TASKS + 1];
    static uint32_t locks[RECORDER_MAX_LOCKS];
    static uint16_t uses[RECORDER_MAX_USES + 1];
    for (size_t task = 0; task < COUNT(tasks); task++) tasks[task] = (struct recorder_task){1, 1};
    tasks[RECORDER_MAX_TASKS - 1].maximum = 255;
    for (size_t lock = 0; lock < COUNT(locks); lock++) locks[lock] = 1 + 7 * 65536;
    for (size_t i = 0; i < COUNT(uses); i++) uses[i] = (uint16_t)(i / COUNT(locks) + i % COUNT(locks) * 256);
    size_t lock_count = use_count ? COUNT(locks) : 0;
    struct recorder_load l = recorder_load_table(tasks, task_count, locks, lock_count, uses, use_count);
    printf("%zu tasks, %zu uses: load %u %zu tasks %zu, last maximum %u\n", task_count, use_count, (unsigned)l.number, l.place,
           l.plan.tasks, l.plan.maximum[RECORDER_MAX_TASKS - 1]);
    return l.plan;
}

/* The last of 200 tasks, and the number after it. */
static void many(void) {
    load_many(97, 0);
    load_many(200, 0);
    load_many(201, 0);
    load_many(200, 6401);
    struct recorder_plan plan = load_many(200, 6400);
    struct recorder_state s = recorder_fresh();
    s = step(plan, s, RECORDER_RELEASE, 199, 0);
    s = step(plan, s, RECORDER_ACQUIRE, 31, 0);
    s = step(plan, s, RECORDER_WORK, 0, 7);
    s = step(plan, s, RECORDER_RELEASE, 200, 0);
    show(&s);
}

/* Lock 1 is taken again inside lock 0. The unlock of that take leaves it open, with the units of its section; the next one is
 * refused, since the newest take is of lock 0. Then takes of lock 1 until the row is full, and one more. */
static void again(struct recorder_plan plan) {
    struct recorder_state s = recorder_fresh();
    s = step(plan, s, RECORDER_RELEASE, 0, 0);
    s = step(plan, s, RECORDER_ACQUIRE, 1, 0);
    s = step(plan, s, RECORDER_ACQUIRE, 0, 0);
    s = step(plan, s, RECORDER_WORK, 0, 2);
    s = step(plan, s, RECORDER_ACQUIRE, 1, 0);
    s = step(plan, s, RECORDER_WORK, 0, 2);
    show(&s);
    s = step(plan, s, RECORDER_UNLOCK, 1, 0);
    s = step(plan, s, RECORDER_UNLOCK, 1, 0);
    s = step(plan, s, RECORDER_UNLOCK, 0, 0);
    s = step(plan, s, RECORDER_WORK, 0, 6);
    show(&s);
    for (size_t takes = 1; takes <= sizeof s.takes[0]; takes++) s = step(plan, s, RECORDER_ACQUIRE, 1, 0);
    show(&s);
}

int main(void) {
    load(4);
    struct recorder_plan plan = load(3).plan;
    users(&plan);
    maxima(&plan);
    many();
    struct recorder_state s = recorder_fresh();
    show(&s);
    s = step(plan, s, RECORDER_RELEASE, 0, 0);
    s = step(plan, s, RECORDER_ACQUIRE, 1, 0);
    s = step(plan, s, RECORDER_ACQUIRE, 0, 0);
    s = step(plan, s, RECORDER_RELEASE, 1, 0);
    s = step(plan, s, RECORDER_WORK, 0, 2);
    s = step(plan, s, RECORDER_TICK, 0, 0);
    show(&s);

    /* refused, each with the state that was given */
    s = step(plan, s, 0, 0, 0);
    s = step(plan, s, 7, 0, 0);
    s = step(plan, s, RECORDER_ACQUIRE, 0, 1);
    s = step(plan, s, RECORDER_WORK, 1, 2);
    s = step(plan, s, RECORDER_FINISH, 1, 0);
    s = step(plan, s, RECORDER_WORK, 0, 0);
    s = step(plan, s, RECORDER_WORK, 0, 3);
    s = step(plan, s, RECORDER_RELEASE, 4, 0);
    s = step(plan, s, RECORDER_RELEASE, 1, 0);
    s = step(plan, s, RECORDER_UNLOCK, 1, 0);
    s = step(plan, s, RECORDER_FINISH, 0, 0);
    /* task 0 runs at 5, by lock 0 */
    struct recorder_plan lower = plan;
    lower.maximum[0] = 4;
    s = step(lower, s, RECORDER_TICK, 0, 0);
    show(&s);
    s.saved[0] = 258;
    s = step(plan, s, RECORDER_TICK, 0, 0);
    show(&s);

    /* P2 by the first protocol; then whose state it is: 1 names the first, every other number the second */
    s = recorder_fresh();
    s = step_by(RECORDER_FIRST, plan, s, RECORDER_RELEASE, 0);
    s = step_by(RECORDER_FIRST, plan, s, RECORDER_ACQUIRE, 1);
    s = step_by(RECORDER_FIRST, plan, s, RECORDER_ACQUIRE, 0);
    s = step_by(RECORDER_FIRST, plan, s, RECORDER_RELEASE, 1);
    s = step_by(RECORDER_FIRST, plan, s, RECORDER_UNLOCK, 0);
    s = step_by(RECORDER_FIRST, plan, s, RECORDER_UNLOCK, 1);
    show(&s);
    step_by(RECORDER_FIRST, plan, s, RECORDER_TICK, 0);
    step_by(RECORDER_SECOND, plan, s, RECORDER_TICK, 0);
    s.next = 1;
    step_by(RECORDER_FIRST, plan, s, RECORDER_TICK, 0);
    step_by(RECORDER_SECOND, plan, s, RECORDER_TICK, 0);
    step_by(0, plan, s, RECORDER_TICK, 0);
    step_by(255, plan, s, RECORDER_TICK, 0);
    s.next = 4;
    step_by(RECORDER_FIRST, plan, s, RECORDER_TICK, 0);
    again(plan);
    return 0;
}
