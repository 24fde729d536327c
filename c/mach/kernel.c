/* The kernel, the lock, and the calling thread with its task. */
#include "layer.h"

#include <stdlib.h>

gelvonds gm_kernel = GELVONDS_NONE;
pthread_mutex_t gm_mutex = PTHREAD_MUTEX_INITIALIZER;
_Thread_local gm_thread gm_self;

static pthread_once_t once = PTHREAD_ONCE_INIT;
static pthread_key_t ending;         /* its destructor is called when a thread ends */
static kern_return_t refusal;        /* why there is no kernel, or 0 */
static bool is_child;                /* of fork */
static bool has_first_task;
static gelvonds_task first_task;
static uint64_t callers;

static void thread_ends(void *self)
{
    (void)self;
    mig_dealloc_reply_port(MACH_PORT_NULL);
    if (gm_self.can_wait)
        pthread_cond_destroy(&gm_self.waiter.condition);
    gm_self.can_wait = false;
    gm_self.entered = false;
}

/* Fork copies the kernel between two calls, and no text of the history that the child would write again. */
static void before_fork(void)
{
    pthread_mutex_lock(&gm_mutex);
    gm_flush_history();
}

static void after_fork(void)
{
    pthread_mutex_unlock(&gm_mutex);
}

/* The child has a copy of the kernel, which the parent doesn't see: each of its calls is refused. */
static void in_child(void)
{
    is_child = true;
    gm_history = NULL;
    gm_self.entered = false;
    gm_self.reply_port = MACH_PORT_NULL;
    pthread_mutex_unlock(&gm_mutex);
}

static void at_exit(void)
{
    if (is_child)
        return;
    pthread_mutex_lock(&gm_mutex);
    gm_close_history();
    pthread_mutex_unlock(&gm_mutex);
}

/* The profile that GELVONDS_PROFILE names; else 1. */
static uint32_t profile(void)
{
    const char *const value = getenv("GELVONDS_PROFILE");
    if (value == NULL || *value == 0)
        return 1;
    if (*value >= '1' && *value <= '3' && value[1] == 0)
        return (uint32_t)(*value - '0');
    fprintf(stderr, "gelvonds: GELVONDS_PROFILE=%s is ignored: it can only be 1, 2 or 3\n", value);
    return 1;
}

static void prepare(void)
{
    refusal = gelvonds_make_with_profile(&gm_kernel, profile());
    if (refusal == KERN_SUCCESS && (pthread_key_create(&ending, thread_ends) != 0
                                    || pthread_atfork(before_fork, after_fork, in_child) != 0 || atexit(at_exit) != 0))
        refusal = KERN_RESOURCE_SHORTAGE;
    if (refusal != KERN_SUCCESS)
        return;
    gm_open_history();
    gm_read_out_of_line();
}

/* Gives the thread its number, and its task: the first one, unless it was started in another. */
static kern_return_t enter(void)
{
    kern_return_t code = KERN_SUCCESS;
    gm_self.caller = callers;
    if (!gm_self.has_task && !has_first_task) {
        code = gelvonds_task_create(&gm_kernel, &first_task);
        gm_record_number(code, "task", &first_task, "task");
        has_first_task = code == KERN_SUCCESS;
    }
    if (code != KERN_SUCCESS)
        return code;
    if (!gm_self.has_task)
        gm_self.task = first_task;
    callers++;
    gm_self.entered = true;
    return KERN_SUCCESS;
}

kern_return_t gm_begin_first(void)
{
    kern_return_t code;
    pthread_once(&once, prepare);
    if (is_child)
        return KERN_INVALID_TASK;
    if (refusal != KERN_SUCCESS)
        return refusal;
    if (pthread_setspecific(ending, &gm_self) != 0)
        return KERN_RESOURCE_SHORTAGE;
    pthread_mutex_lock(&gm_mutex);
    code = enter();
    if (code != KERN_SUCCESS)
        pthread_mutex_unlock(&gm_mutex);
    return code;
}

kern_return_t gm_end(kern_return_t code, enum gm_step step)
{
    if (code == KERN_SUCCESS)
        gm_wake(step);
    gm_probe();
    pthread_mutex_unlock(&gm_mutex);
    return code;
}
