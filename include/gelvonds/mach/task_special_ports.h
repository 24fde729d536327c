/* The bootstrap port of a task: the port by which it finds all others. It has it from the task that made it. */
#ifndef _MACH_TASK_SPECIAL_PORTS_H_
#define _MACH_TASK_SPECIAL_PORTS_H_

#include <mach/mach_types.h>

#ifdef __cplusplus
extern "C" {
#endif

/* Gives the caller's task a send right for the task's bootstrap port; 0 where it has none. */
kern_return_t task_get_bootstrap_port(task_t task, mach_port_t *special_port);

/* Makes this the task's bootstrap port: the caller's task has a send right under the name, which it keeps. 0: none. */
kern_return_t task_set_bootstrap_port(task_t task, mach_port_t special_port);

#ifdef __cplusplus
}
#endif

#endif
