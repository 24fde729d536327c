/* The calls of names and rights: each is one call of the kernel.
 *
 * Where a right goes from a name, or to another name, a thread of the task may wait that sends by it. No port is
 * touched then, so it is woken apart. */
#include "layer.h"

kern_return_t mach_port_allocate(task_t task, mach_port_right_t right, mach_port_name_t *name)
{
    const gelvonds_task number = gm_number(task);
    kern_return_t code = gm_begin();
    if (code != KERN_SUCCESS)
        return code;
    code = gelvonds_port_allocate(&gm_kernel, number, right, name);
    gm_record_number(code, "name", name, "alloc %u %u", number, right);
    return gm_end(code, GM_CHANGES);
}

kern_return_t mach_port_allocate_name(task_t task, mach_port_right_t right, mach_port_name_t name)
{
    const gelvonds_task number = gm_number(task);
    kern_return_t code = gm_begin();
    if (code != KERN_SUCCESS)
        return code;
    code = gelvonds_port_allocate_name(&gm_kernel, number, right, name);
    gm_record_number(code, "name", &name, "allocname %u %u %u", number, right, name);
    return gm_end(code, GM_CHANGES);
}

kern_return_t mach_port_deallocate(task_t task, mach_port_name_t name)
{
    const gelvonds_task number = gm_number(task);
    kern_return_t code = gm_begin();
    if (code != KERN_SUCCESS)
        return code;
    code = gelvonds_port_deallocate(&gm_kernel, number, name);
    gm_record_code(code, "dealloc %u %u", number, name);
    if (code == KERN_SUCCESS)
        gm_wake_senders_of(number);
    return gm_end(code, GM_CHANGES);
}

kern_return_t mach_port_destroy(task_t task, mach_port_name_t name)
{
    const gelvonds_task number = gm_number(task);
    kern_return_t code = gm_begin();
    if (code != KERN_SUCCESS)
        return code;
    code = gelvonds_port_destroy(&gm_kernel, number, name);
    gm_record_code(code, "destroy %u %u", number, name);
    if (code == KERN_SUCCESS)
        gm_wake_senders_of(number);
    return gm_end(code, GM_CHANGES);
}

kern_return_t mach_port_mod_refs(task_t task, mach_port_name_t name, mach_port_right_t right, mach_port_delta_t delta)
{
    const gelvonds_task number = gm_number(task);
    kern_return_t code = gm_begin();
    if (code != KERN_SUCCESS)
        return code;
    code = gelvonds_port_mod_refs(&gm_kernel, number, name, right, delta);
    gm_record_code(code, "modrefs %u %u %u %d", number, name, right, delta);
    if (code == KERN_SUCCESS)
        gm_wake_senders_of(number);
    return gm_end(code, GM_CHANGES);
}

kern_return_t mach_port_get_refs(task_t task, mach_port_name_t name, mach_port_right_t right, mach_port_urefs_t *refs)
{
    const gelvonds_task number = gm_number(task);
    kern_return_t code = gm_begin();
    if (code != KERN_SUCCESS)
        return code;
    code = gelvonds_port_get_refs(&gm_kernel, number, name, right, refs);
    gm_record_number(code, "refs", refs, "refs %u %u %u", number, name, right);
    return gm_end(code, GM_ASKED);
}

kern_return_t mach_port_type(task_t task, mach_port_name_t name, mach_port_type_t *ptype)
{
    const gelvonds_task number = gm_number(task);
    kern_return_t code = gm_begin();
    if (code != KERN_SUCCESS)
        return code;
    code = gelvonds_port_type(&gm_kernel, number, name, ptype);
    gm_record_number(code, "type", ptype, "type %u %u", number, name);
    return gm_end(code, GM_ASKED);
}

kern_return_t mach_port_rename(task_t task, mach_port_name_t old_name, mach_port_name_t new_name)
{
    const gelvonds_task number = gm_number(task);
    kern_return_t code = gm_begin();
    if (code != KERN_SUCCESS)
        return code;
    code = gelvonds_port_rename(&gm_kernel, number, old_name, new_name);
    gm_record_code(code, "rename %u %u %u", number, old_name, new_name);
    if (code == KERN_SUCCESS)
        gm_wake_senders_of(number);
    return gm_end(code, GM_CHANGES);
}

/* ---- the receive right, and sets ---- */

kern_return_t mach_port_get_receive_status(task_t task, mach_port_name_t name, mach_port_status_t *status)
{
    const gelvonds_task number = gm_number(task);
    gelvonds_status found;
    kern_return_t code = gm_begin();
    if (code != KERN_SUCCESS)
        return code;
    code = gelvonds_port_get_receive_status(&gm_kernel, number, name, &found);
    gm_record_status(code, &found, number, name);
    if (code == KERN_SUCCESS) {
        status->mps_pset = found.mps_pset;
        status->mps_seqno = found.mps_seqno;
        status->mps_mscount = found.mps_mscount;
        status->mps_qlimit = found.mps_qlimit;
        status->mps_msgcount = found.mps_msgcount;
        status->mps_sorights = found.mps_sorights;
        status->mps_srights = (boolean_t)found.mps_srights;
        status->mps_pdrequest = (boolean_t)found.mps_pdrequest;
        status->mps_nsrequest = (boolean_t)found.mps_nsrequest;
    }
    return gm_end(code, GM_ASKED);
}

kern_return_t mach_port_set_qlimit(task_t task, mach_port_name_t name, mach_port_msgcount_t qlimit)
{
    const gelvonds_task number = gm_number(task);
    kern_return_t code = gm_begin();
    if (code != KERN_SUCCESS)
        return code;
    code = gelvonds_port_set_qlimit(&gm_kernel, number, name, qlimit);
    gm_record_code(code, "qlimit %u %u %u", number, name, qlimit);
    return gm_end(code, GM_CHANGES);
}

kern_return_t mach_port_set_mscount(task_t task, mach_port_name_t name, mach_port_mscount_t mscount)
{
    const gelvonds_task number = gm_number(task);
    kern_return_t code = gm_begin();
    if (code != KERN_SUCCESS)
        return code;
    code = gelvonds_port_set_mscount(&gm_kernel, number, name, mscount);
    gm_record_code(code, "mscount %u %u %u", number, name, mscount);
    return gm_end(code, GM_CHANGES);
}

kern_return_t mach_port_set_seqno(task_t task, mach_port_name_t name, mach_port_seqno_t seqno)
{
    const gelvonds_task number = gm_number(task);
    kern_return_t code = gm_begin();
    if (code != KERN_SUCCESS)
        return code;
    code = gelvonds_port_set_seqno(&gm_kernel, number, name, seqno);
    gm_record_code(code, "seqno %u %u %u", number, name, seqno);
    return gm_end(code, GM_CHANGES);
}

kern_return_t mach_port_move_member(task_t task, mach_port_name_t member, mach_port_name_t after)
{
    const gelvonds_task number = gm_number(task);
    kern_return_t code = gm_begin();
    if (code != KERN_SUCCESS)
        return code;
    code = gelvonds_port_move_member(&gm_kernel, number, member, after);
    gm_record_code(code, "move %u %u %u", number, member, after);
    return gm_end(code, GM_CHANGES);
}

kern_return_t mach_port_insert_member(task_t task, mach_port_name_t name, mach_port_name_t pset)
{
    const gelvonds_task number = gm_number(task);
    kern_return_t code = gm_begin();
    if (code != KERN_SUCCESS)
        return code;
    code = gelvonds_port_insert_member(&gm_kernel, number, name, pset);
    gm_record_code(code, "insmember %u %u %u", number, name, pset);
    return gm_end(code, GM_CHANGES);
}

kern_return_t mach_port_extract_member(task_t task, mach_port_name_t name, mach_port_name_t pset)
{
    const gelvonds_task number = gm_number(task);
    kern_return_t code = gm_begin();
    if (code != KERN_SUCCESS)
        return code;
    code = gelvonds_port_extract_member(&gm_kernel, number, name, pset);
    gm_record_code(code, "exmember %u %u %u", number, name, pset);
    return gm_end(code, GM_CHANGES);
}

/* ---- rights from task to task, and notices ---- */

kern_return_t mach_port_insert_right(task_t task, mach_port_name_t name, mach_port_t poly,
                                     mach_msg_type_name_t polyPoly)
{
    const gelvonds_task number = gm_number(task);
    gelvonds_task from;
    kern_return_t code = gm_begin();
    if (code != KERN_SUCCESS)
        return code;
    from = gm_self.task;
    code = gelvonds_port_insert_right(&gm_kernel, number, name, from, poly, polyPoly);
    gm_record_code(code, "insert %u %u %u %u %u", number, name, from, poly, polyPoly);
    if (code == KERN_SUCCESS)
        gm_wake_senders_of(from);
    return gm_end(code, GM_CHANGES);
}

kern_return_t mach_port_extract_right(task_t task, mach_port_name_t name, mach_msg_type_name_t msgt_name,
                                      mach_port_t *poly, mach_msg_type_name_t *polyPoly)
{
    const gelvonds_task number = gm_number(task);
    gelvonds_task to;
    kern_return_t code = gm_begin();
    if (code != KERN_SUCCESS)
        return code;
    to = gm_self.task;
    code = gelvonds_port_extract_right(&gm_kernel, number, name, msgt_name, to, poly, polyPoly);
    gm_record_right(code, poly, polyPoly, "extract %u %u %u %u", number, name, msgt_name, to);
    if (code == KERN_SUCCESS)
        gm_wake_senders_of(number);
    return gm_end(code, GM_CHANGES);
}

kern_return_t mach_port_request_notification(task_t task, mach_port_name_t name, mach_msg_id_t id,
                                             mach_port_mscount_t sync, mach_port_t notify,
                                             mach_msg_type_name_t notifyPoly, mach_port_t *previous)
{
    const gelvonds_task number = gm_number(task);
    const uint32_t variant = (uint32_t)id;
    kern_return_t code = gm_begin();
    if (code != KERN_SUCCESS)
        return code;
    code = gelvonds_port_request_notification(&gm_kernel, number, name, variant, sync, notify, notifyPoly, previous);
    gm_record_number(code, "previous", previous, "notify %u %u %u %u %u %u", number, name, variant, sync, notify,
                     notifyPoly);
    return gm_end(code, GM_CHANGES);
}
