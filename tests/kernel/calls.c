#define _GNU_SOURCE
#include "calls.h"

#include <linux/perf_event.h>
#include <sched.h>
#include <stdio.h>
#include <string.h>
#include <sys/mount.h>
#include <sys/syscall.h>
#include <unistd.h>

#define COUNT(list) (sizeof(list) / sizeof(list)[0])

/* Where tracefs is mounted, today and on older systems. */
static const char *const places[] = {"/sys/kernel/tracing", "/sys/kernel/debug/tracing"};

/* The kernel's number for the trace point at the start of the call; 0 if there is none. */
static unsigned long long point;

static void find(void) {
    for (size_t k = 0; k < COUNT(places) && point == 0; k++) {
        char name[128];
        snprintf(name, sizeof name, "%s/events/syscalls/sys_enter_sched_setscheduler/id", places[k]);
        FILE *file = fopen(name, "r");
        if (!file) continue;
        if (fscanf(file, "%llu", &point) != 1) point = 0;
        fclose(file);
    }
}

/* In a name space of its own, so that nothing of it is left when this program ends. */
static bool mount_for_this_program(void) {
    return unshare(CLONE_NEWNS) == 0 && mount(NULL, "/", NULL, MS_REC | MS_PRIVATE, NULL) == 0 &&
           mount("tracefs", places[0], "tracefs", 0, NULL) == 0;
}

void calls_begin(void) {
    find();
    if (point == 0 && mount_for_this_program()) find();
    /* This counter is never read and stays open: the kernel need not put the trace point in place anew for each list. */
    calls_open();
}

int calls_open(void) {
    if (point == 0) return -1;
    struct perf_event_attr attr;
    memset(&attr, 0, sizeof attr);
    attr.size = sizeof attr;
    attr.type = PERF_TYPE_TRACEPOINT;
    attr.config = point;
    return (int)syscall(SYS_perf_event_open, &attr, 0, -1, -1, PERF_FLAG_FD_CLOEXEC);
}

bool calls_read(int counter, uint32_t *calls) {
    uint64_t count;
    if (counter < 0 || read(counter, &count, sizeof count) != sizeof count) return false;
    *calls = (uint32_t)count;
    return true;
}
