/* Tasks, and the threads that are started in them. */
#include "layer.h"

#include <stdlib.h>

task_t mach_task_self(void)
{
    if (!gm_self.entered) {
        if (gm_begin() != KERN_SUCCESS)
            return TASK_NULL;
        gm_end(KERN_SUCCESS, GM_ASKED);
    }
    return gm_task_of(gm_self.task);
}

mach_port_t mach_reply_port(void)
{
    mach_port_t port;
    const task_t self = mach_task_self();
    return mach_port_allocate(self, MACH_PORT_RIGHT_RECEIVE, &port) == KERN_SUCCESS ? port : MACH_PORT_NULL;
}

/* The end of a task touches no port where it has none; its threads that wait are woken all the same. */
kern_return_t task_terminate(task_t target_task)
{
    const gelvonds_task number = gm_number(target_task);
    kern_return_t code = gm_begin();
    if (code != KERN_SUCCESS)
        return code;
    code = gelvonds_task_terminate(&gm_kernel, number);
    gm_record_code(code, "end %u", number);
    if (code == KERN_SUCCESS) {
        gm_wake(GM_CHANGES);
        gm_wake_task(number);
        gm_drop_bootstrap(number);
    }
    return gm_end(code, GM_ASKED);
}

kern_return_t gelvonds_mach_task_create(task_t *child)
{
    gelvonds_task number;
    kern_return_t code = gm_begin();
    if (code != KERN_SUCCESS)
        return code;
    code = gelvonds_task_create(&gm_kernel, &number);
    gm_record_number(code, "task", &number, "task");
    if (code == KERN_SUCCESS) {
        code = gm_inherit_bootstrap(gm_self.task, number);
        *child = gm_task_of(number);
    }
    return gm_end(code, GM_ASKED);
}

/* ---- a thread of a task ---- */

typedef struct start {
    gelvonds_task task;
    void *(*run)(void *);
    void *argument;
} start;

static void *run_in_task(void *given)
{
    const start from = *(start *)given;
    free(given);
    gm_self.task = from.task;
    gm_self.has_task = true;
    return from.run(from.argument);
}

kern_return_t gelvonds_mach_thread_create(task_t task, void *(*run)(void *), void *argument, pthread_t *thread)
{
    start *const given = malloc(sizeof *given);
    if (given == NULL)
        return KERN_RESOURCE_SHORTAGE;
    given->task = gm_number(task);
    given->run = run;
    given->argument = argument;
    if (pthread_create(thread, NULL, run_in_task, given) == 0)
        return KERN_SUCCESS;
    free(given);
    return KERN_RESOURCE_SHORTAGE;
}

void gelvonds_mach_get_counts(gelvonds_mach_counts_t *counts)
{
    pthread_mutex_lock(&gm_mutex);
    *counts = gm_counts;
    pthread_mutex_unlock(&gm_mutex);
}
