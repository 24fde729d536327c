/* mach_msg as tries: each makes one call of the kernel, and tells what the next one is, if there is one. (Where data
 * goes out of line, a try to receive may make two.) */
#include "layer.h"

static bool has(const gm_message_call *call, mach_msg_option_t option)
{
    return (call->option & option) != 0;
}

/* Whether the call waits that has this option for a timeout: without it for good, with it unless the time is 0. */
static bool waits(const gm_message_call *call, mach_msg_option_t limit)
{
    return !has(call, limit) || call->timeout != 0;
}

/* Whether a send that is done takes a right from its task, so that a name changes. */
static bool moves_rights(const mach_msg_header_t *msg)
{
    const mach_msg_bits_t remote = MACH_MSGH_BITS_REMOTE(msg->msgh_bits), local = MACH_MSGH_BITS_LOCAL(msg->msgh_bits);
    return (msg->msgh_bits & MACH_MSGH_BITS_COMPLEX) != 0 || MACH_MSG_TYPE_PORT_ANY_RIGHT(remote)
           || MACH_MSG_TYPE_PORT_ANY_RIGHT(local);
}

static mach_msg_return_t try_to_send(gm_message_call *call)
{
    const gelvonds_task task = gm_self.task;
    mach_msg_return_t code = gelvonds_send(&gm_kernel, task, (const uint8_t *)call->buffer, call->send_size);
    if (gm_history != NULL)
        gm_record_send(code, task, call->buffer, call->send_size);
    call->next = GM_DONE;
    if (code == MACH_MSG_SUCCESS) {
        gm_wake(GM_SENDS);
        if (gm_counts.waiting_senders != 0 && moves_rights(call->buffer))
            gm_wake_senders_of(task);
        if (gm_out_of_line)
            gm_is_sent(call);
        if (has(call, MACH_RCV_MSG))
            call->next = GM_SENT;
    } else if (code == MACH_SEND_TIMED_OUT) {
        gm_counts.refused_sends++;
        if (waits(call, MACH_SEND_TIMEOUT)) {
            gelvonds_port_identity(&gm_kernel, task, call->buffer->msgh_remote_port, &call->on);
            call->next = GM_WAITS_FOR_ROOM;
        }
    }
    gm_probe();
    return code;
}

static inline mach_msg_return_t receive(gm_message_call *call)
{
    const mach_msg_return_t code =
        gelvonds_receive(&gm_kernel, gm_self.task, call->name, (uint8_t *)call->buffer, call->room,
                         has(call, MACH_RCV_LARGE), &call->length, &call->on);
    if (gm_history != NULL)
        gm_record_receipt(code, call, gm_self.task, NULL);
    return code;
}

static inline mach_msg_return_t receive_again(gm_message_call *call)
{
    const gelvonds_waited before = call->on;
    const mach_msg_return_t code =
        gelvonds_receive_again(&gm_kernel, gm_self.task, (uint8_t *)call->buffer, call->room,
                               has(call, MACH_RCV_LARGE), &call->length, &call->on);
    if (gm_history != NULL)
        gm_record_receipt(code, call, gm_self.task, &before);
    return code;
}

static inline mach_msg_return_t try_to_receive(gm_message_call *call, gm_receipt *from)
{
    const mach_msg_return_t code = gm_out_of_line ? gm_receive_outlined(call, from) : from(call);
    call->next = GM_DONE;
    if (code == MACH_RCV_TIMED_OUT && waits(call, MACH_RCV_TIMEOUT))
        call->next = GM_WAITS_FOR_MESSAGE;
    else if (code == MACH_MSG_SUCCESS || code == MACH_RCV_TOO_LARGE)
        gm_wake(GM_RECEIVES);
    gm_probe();
    return code;
}

mach_msg_return_t gm_first_try(gm_message_call *call)
{
    const mach_msg_option_t known = MACH_SEND_MSG | MACH_RCV_MSG | MACH_SEND_TIMEOUT | MACH_RCV_TIMEOUT
                                    | MACH_SEND_INTERRUPT | MACH_RCV_INTERRUPT | MACH_RCV_LARGE;
    call->next = GM_DONE;
    if ((call->option & ~known) != 0)
        return KERN_INVALID_ARGUMENT;
    if (has(call, MACH_SEND_MSG))
        return try_to_send(call);
    if (has(call, MACH_RCV_MSG))
        return try_to_receive(call, receive);
    return MACH_MSG_SUCCESS;
}

mach_msg_return_t gm_next_try(gm_message_call *call)
{
    if (call->next == GM_WAITS_FOR_ROOM)
        return try_to_send(call);
    return try_to_receive(call, call->next == GM_SENT ? receive : receive_again);
}
