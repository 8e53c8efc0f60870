/* Whoever runs takes the next event and writes its own number down. So who took an event is who ran after the event before
 * it.
 *
 * All threads are on one processor, under SCHED_FIFO. There a thread runs until it waits, or until one of higher priority can
 * run; and nothing but what the threads themselves do, event by event, makes another one able to run. */
#define _GNU_SOURCE
#include "threads.h"

#include <errno.h>
#include <pthread.h>
#include <sched.h>
#include <semaphore.h>
#include <sys/mman.h>
#include <unistd.h>

#include "calls.h"

struct runner {
    uint8_t number;
    /* Posted by the release of the task. */
    sem_t released;
    /* Of its calls for another priority. */
    int counter;
};

static const struct list *list;
static struct trace *trace;
static enum wrong wrong;

static struct runner tasks[MOST_TASKS], driver = {.number = NOBODY};
static pthread_mutex_t locks[MOST_LOCKS];
/* Posted when a task waits for its first release, and when the run is over. */
static sem_t ready, over;
static atomic_bool is_over;

static _Noreturn void rest(void) {
    for (;;) pause();
}

/* Nobody takes an event after this. */
static _Noreturn void end(enum ending ending) {
    trace->ending = ending;
    is_over = true;
    sem_post(&over);
    rest();
}

static void wait_for(sem_t *sem) {
    while (sem_wait(sem) != 0) continue; /* a signal came */
}

/* ---- the events */

/* A take of a lock that the thread holds is counted by the C library and asks the kernel for nothing; of a lock that another
 * one holds it waits. */
static bool take(pthread_mutex_t *lock) {
    int refused = pthread_mutex_lock(lock);
    return refused == 0 || (wrong == FORGETS_AGAIN && refused == EDEADLK);
}

/* Does an event. False for an unlock by one that does not hold the lock, which the C library refuses, and where the driver
 * would have to act. */
static bool act(struct runner *self, const uint8_t *event) {
    uint8_t id = event[1];
    switch (event[0]) {
    case RELEASE: return sem_post(&tasks[id].released) == 0;
    case ACQUIRE: return self != &driver && take(&locks[id]);
    case UNLOCK: return self != &driver && pthread_mutex_unlock(&locks[id]) == 0;
    case FINISH:
        if (self == &driver) return false;
        wait_for(&self->released);
        return true;
    case WORK:
    case TICK: return true;
    default: return false;
    }
}

static _Noreturn void take_events(struct runner *self) {
    while (!is_over) {
        size_t place = atomic_fetch_add(&trace->taken, 1);
        trace->who[place] = self->number;
        if (place == list->events) end(WHOLE);
        while (wrong == STAYS && place == list->events / 2) continue;
        if (!act(self, event_at(list, place))) end(OUT_OF_STEP);
    }
    rest();
}

static void *task_thread(void *argument) {
    struct runner *self = argument;
    self->counter = calls_open();
    sem_post(&ready);
    wait_for(&self->released);
    take_events(self);
}

static void *driver_thread(void *argument) {
    take_events(argument);
}

/* ---- the start */

/* Of either type a lock is given back by its holder alone. One that forgets refuses its holder's second take. */
static bool make_lock(pthread_mutex_t *lock, int ceiling) {
    int type = wrong == FORGETS_AGAIN ? PTHREAD_MUTEX_ERRORCHECK : PTHREAD_MUTEX_RECURSIVE;
    int protocol = wrong == RAISES_NOTHING ? PTHREAD_PRIO_NONE : PTHREAD_PRIO_PROTECT;
    pthread_mutexattr_t attr;
    return pthread_mutexattr_init(&attr) == 0 && pthread_mutexattr_settype(&attr, type) == 0 &&
           pthread_mutexattr_setprotocol(&attr, protocol) == 0 &&
           pthread_mutexattr_setprioceiling(&attr, ceiling) == 0 && pthread_mutex_init(lock, &attr) == 0;
}

static bool start(int processor, int priority, void *(*function)(void *), struct runner *runner) {
    cpu_set_t one;
    CPU_ZERO(&one);
    CPU_SET(processor, &one);
    struct sched_param param = {.sched_priority = priority};
    size_t stack = (size_t)sysconf(_SC_THREAD_STACK_MIN) + 32768;
    pthread_attr_t attr;
    pthread_t thread;
    return pthread_attr_init(&attr) == 0 && pthread_attr_setstacksize(&attr, stack) == 0 &&
           pthread_attr_setaffinity_np(&attr, sizeof one, &one) == 0 &&
           pthread_attr_setinheritsched(&attr, PTHREAD_EXPLICIT_SCHED) == 0 &&
           pthread_attr_setschedpolicy(&attr, SCHED_FIFO) == 0 && pthread_attr_setschedparam(&attr, &param) == 0 &&
           pthread_create(&thread, &attr, function, runner) == 0;
}

/* The driver comes last. It is below all others, so it first runs when all tasks wait for their release. */
static bool start_all(int processor) {
    sem_init(&ready, 0, 0);
    sem_init(&over, 0, 0);
    for (size_t k = 0; k < list->locks; k++) {
        if (!make_lock(&locks[k], lock_priority(list, k))) return false;
    }
    for (size_t k = 0; k < list->tasks; k++) {
        tasks[k].number = (uint8_t)k;
        sem_init(&tasks[k].released, 0, 0);
        if (!start(processor, task_priority(list, k), task_thread, &tasks[k])) return false;
    }
    for (size_t k = 0; k < list->tasks; k++) wait_for(&ready);
    /* Where this is allowed, no thread waits for a page of memory from now on: another one would run meanwhile. */
    mlockall(MCL_CURRENT);
    return start(processor, driver_priority(), driver_thread, &driver);
}

static void count_calls(void) {
    trace->is_counted = true;
    for (size_t k = 0; k < list->tasks; k++) {
        uint32_t calls = 0;
        trace->is_counted &= calls_read(tasks[k].counter, &calls);
        trace->calls += calls;
    }
}

_Noreturn void run(const struct list *given, int processor, enum wrong way, struct trace *shared) {
    list = given;
    trace = shared;
    wrong = way;
    if (start_all(processor)) {
        wait_for(&over);
        count_calls();
    } else {
        trace->ending = UNABLE;
    }
    /* All threads end with the process. */
    _exit(0);
}
