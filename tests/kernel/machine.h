/* What a run needs of the machine. */
#ifndef MACHINE_H
#define MACHINE_H

/* Why lists cannot be run here, in words; nothing where they can. Then this program keeps off the tasks' processor. */
const char *machine_lacks(void);

/* The processor that all tasks run on. */
int tasks_processor(void);

#endif
