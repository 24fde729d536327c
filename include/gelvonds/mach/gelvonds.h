/* What this library has beside Mach's calls: tasks of one process, their threads, and counters. A program that has
 * nothing of this has one task, to which all its threads belong. */
#ifndef _MACH_GELVONDS_H_
#define _MACH_GELVONDS_H_

#include <mach/mach_types.h>
#include <pthread.h>

#ifdef __cplusplus
extern "C" {
#endif

/* Makes a task without names. Its bootstrap port is that of the caller's task.
 * KERN_NO_SPACE: 65,536 tasks were made; KERN_RESOURCE_SHORTAGE: out of memory. */
kern_return_t gelvonds_mach_task_create(task_t *child);

/* Starts a thread of the task, as pthread_create does. Each of its calls is the task's. A thread that pthread_create
 * starts is one of the program's first task.
 * KERN_RESOURCE_SHORTAGE: no memory, or no thread. */
kern_return_t gelvonds_mach_thread_create(task_t task, void *(*start)(void *), void *argument, pthread_t *thread);

/* Counts since the program's first call, for tests and measurements. */
typedef struct gelvonds_mach_counts {
    uint64_t woken;           /* how many waiting threads were woken */
    uint64_t vain;            /* how many of them tried in vain, and waited on */
    uint64_t refused_sends;   /* how many tries to send found a full queue */
    uint64_t waiting_senders; /* how many threads wait for a place now */
    uint64_t waiting_receivers; /* how many wait for a message now */
} gelvonds_mach_counts_t;
void gelvonds_mach_get_counts(gelvonds_mach_counts_t *counts);

#ifdef __cplusplus
}
#endif

#endif
