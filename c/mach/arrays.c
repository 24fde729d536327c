/* The calls that return arrays. An array is as long as the kernel says that it must be, on pages of its own. */
#include "layer.h"

/* Room for so many words; KERN_RESOURCE_SHORTAGE where memory is refused. */
static kern_return_t words(natural_t **array, size_t count)
{
    vm_address_t address = 0;
    kern_return_t code = vm_allocate(TASK_NULL, &address, (count == 0 ? 1 : count) * sizeof **array, TRUE);
    *array = (natural_t *)address;
    return code;
}

static void no_words(natural_t *array, size_t count)
{
    vm_deallocate(TASK_NULL, (vm_address_t)array, (count == 0 ? 1 : count) * sizeof *array);
}

static kern_return_t two_arrays(natural_t **names, natural_t **types, size_t count)
{
    kern_return_t code = words(names, count);
    if (code != KERN_SUCCESS)
        return code;
    code = words(types, count);
    if (code != KERN_SUCCESS)
        no_words(*names, count);
    return code;
}

/* With the lock held. */
static kern_return_t list_names(gelvonds_task task, natural_t **names, natural_t **types, size_t *count)
{
    size_t room = 0;
    for (;;) {
        kern_return_t code = two_arrays(names, types, room);
        if (code != KERN_SUCCESS)
            return code;
        code = gelvonds_port_names(&gm_kernel, task, *names, room, *types, room, count);
        if (code != GELVONDS_TOO_SHORT)
            gm_record_names(code, *names, *types, *count, "names %u", task);
        if (code == KERN_SUCCESS)
            return code;
        no_words(*names, room);
        no_words(*types, room);
        if (code != GELVONDS_TOO_SHORT)
            return code;
        room = *count;
    }
}

kern_return_t mach_port_names(task_t task, mach_port_name_array_t *names, mach_msg_type_number_t *namesCnt,
                              mach_port_type_array_t *types, mach_msg_type_number_t *typesCnt)
{
    size_t count = 0;
    natural_t *found, *found_types;
    kern_return_t code = gm_begin();
    if (code != KERN_SUCCESS)
        return code;
    code = list_names(gm_number(task), &found, &found_types, &count);
    if (code == KERN_SUCCESS) {
        *names = found;
        *types = found_types;
        *namesCnt = *typesCnt = (mach_msg_type_number_t)count;
    }
    return gm_end(code, GM_ASKED);
}

/* With the lock held. */
static kern_return_t list_members(gelvonds_task task, mach_port_name_t name, natural_t **members, size_t *count)
{
    size_t room = 0;
    for (;;) {
        kern_return_t code = words(members, room);
        if (code != KERN_SUCCESS)
            return code;
        code = gelvonds_port_get_set_status(&gm_kernel, task, name, *members, room, count);
        if (code != GELVONDS_TOO_SHORT)
            gm_record_names(code, *members, NULL, *count, "members %u %u", task, name);
        if (code == KERN_SUCCESS)
            return code;
        no_words(*members, room);
        if (code != GELVONDS_TOO_SHORT)
            return code;
        room = *count;
    }
}

kern_return_t mach_port_get_set_status(task_t task, mach_port_name_t name, mach_port_name_array_t *members,
                                       mach_msg_type_number_t *membersCnt)
{
    size_t count = 0;
    natural_t *found;
    kern_return_t code = gm_begin();
    if (code != KERN_SUCCESS)
        return code;
    code = list_members(gm_number(task), name, &found, &count);
    if (code == KERN_SUCCESS) {
        *members = found;
        *membersCnt = (mach_msg_type_number_t)count;
    }
    return gm_end(code, GM_ASKED);
}
