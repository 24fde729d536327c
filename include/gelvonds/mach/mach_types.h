/* The types that mach_types.defs names, of those that are there. */
#ifndef _MACH_MACH_TYPES_H_
#define _MACH_MACH_TYPES_H_

#include <mach/std_types.h>

/* A task: a number that mach_task_self gives. It is no name of a right, so it can't be sent. */
typedef mach_port_t task_t;
typedef mach_port_t ipc_space_t;

#define TASK_NULL ((task_t)0)

#endif
