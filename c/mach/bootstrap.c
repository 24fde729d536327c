/* Bootstrap ports. A task of the layer's own, made when the first is set, keeps the send rights: each is one reference
 * of that task, which all tasks share that have the port from the same maker. */
#include "layer.h"

#include <stdlib.h>

typedef struct bootstrap {
    mach_port_name_t name; /* of the keeping task */
    size_t users;
} bootstrap;

static bool has_keeper;
static gelvonds_task keeper;
static bootstrap **of_task; /* by number; NULL for none */
static size_t room;

static kern_return_t make_room(gelvonds_task task)
{
    const size_t wanted = (size_t)task + 16;
    bootstrap **grown;
    if (task < room)
        return KERN_SUCCESS;
    grown = realloc(of_task, wanted * sizeof *grown);
    if (grown == NULL)
        return KERN_RESOURCE_SHORTAGE;
    while (room < wanted)
        grown[room++] = NULL;
    of_task = grown;
    return KERN_SUCCESS;
}

static bootstrap *found(gelvonds_task task)
{
    return task < room ? of_task[task] : NULL;
}

/* Whether the task lives. (The name isn't looked at otherwise; this makes no call.) */
static bool lives(gelvonds_task task)
{
    gelvonds_waited any;
    return gelvonds_port_identity(&gm_kernel, task, MACH_PORT_NULL, &any) != KERN_INVALID_TASK;
}

static void give_up(mach_port_name_t name)
{
    const kern_return_t code = gelvonds_port_deallocate(&gm_kernel, keeper, name);
    gm_record_code(code, "dealloc %u %u", keeper, name);
    gm_wake(GM_CHANGES);
}

void gm_drop_bootstrap(gelvonds_task task)
{
    bootstrap *const had = found(task);
    if (had == NULL)
        return;
    of_task[task] = NULL;
    if (--had->users == 0) {
        give_up(had->name);
        free(had);
    }
}

kern_return_t gm_inherit_bootstrap(gelvonds_task maker, gelvonds_task child)
{
    bootstrap *const from = found(maker);
    kern_return_t code;
    if (from == NULL)
        return KERN_SUCCESS;
    code = make_room(child);
    if (code == KERN_SUCCESS) {
        from->users++;
        of_task[child] = from;
    }
    return code;
}

/* Copies a send right from one task to another, and tells its name there. */
static kern_return_t copy_send(gelvonds_task from, mach_port_name_t name, gelvonds_task to, mach_port_name_t *there)
{
    uint32_t kind;
    const kern_return_t code =
        gelvonds_port_extract_right(&gm_kernel, from, name, MACH_MSG_TYPE_COPY_SEND, to, there, &kind);
    gm_record_right(code, there, &kind, "extract %u %u %u %u", from, name, MACH_MSG_TYPE_COPY_SEND, to);
    if (code == KERN_SUCCESS)
        gm_wake(GM_CHANGES);
    return code;
}

kern_return_t task_get_bootstrap_port(task_t task, mach_port_t *special_port)
{
    const gelvonds_task number = gm_number(task);
    kern_return_t code = gm_begin();
    if (code != KERN_SUCCESS)
        return code;
    if (!lives(number))
        code = KERN_INVALID_TASK;
    else if (found(number) == NULL)
        *special_port = MACH_PORT_NULL;
    else
        code = copy_send(keeper, found(number)->name, gm_self.task, special_port);
    return gm_end(code, GM_ASKED);
}

static kern_return_t make_keeper(void)
{
    kern_return_t code;
    if (has_keeper)
        return KERN_SUCCESS;
    code = gelvonds_task_create(&gm_kernel, &keeper);
    gm_record_number(code, "task", &keeper, "task");
    has_keeper = code == KERN_SUCCESS;
    return code;
}

static kern_return_t set_new(gelvonds_task task, mach_port_t port)
{
    bootstrap *made;
    kern_return_t code = make_keeper();
    if (code == KERN_SUCCESS)
        code = make_room(task);
    made = code == KERN_SUCCESS ? malloc(sizeof *made) : NULL;
    if (code == KERN_SUCCESS && made == NULL)
        code = KERN_RESOURCE_SHORTAGE;
    if (code == KERN_SUCCESS)
        code = copy_send(gm_self.task, port, keeper, &made->name);
    if (code != KERN_SUCCESS) {
        free(made);
        return code;
    }
    gm_drop_bootstrap(task);
    made->users = 1;
    of_task[task] = made;
    return KERN_SUCCESS;
}

kern_return_t task_set_bootstrap_port(task_t task, mach_port_t special_port)
{
    const gelvonds_task number = gm_number(task);
    kern_return_t code = gm_begin();
    if (code != KERN_SUCCESS)
        return code;
    if (!lives(number))
        code = KERN_INVALID_TASK;
    else if (special_port == MACH_PORT_NULL)
        gm_drop_bootstrap(number);
    else
        code = set_new(number, special_port);
    return gm_end(code, GM_ASKED);
}
