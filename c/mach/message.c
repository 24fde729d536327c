/* mach_msg: tries, and waits between them. */
#include "layer.h"

/* The time so many milliseconds from now. */
static struct timespec after(mach_msg_timeout_t milliseconds)
{
    struct timespec then;
    clock_gettime(CLOCK_MONOTONIC, &then);
    then.tv_sec += (time_t)(milliseconds / 1000);
    then.tv_nsec += (long)(milliseconds % 1000) * 1000000;
    if (then.tv_nsec >= 1000000000) {
        then.tv_sec++;
        then.tv_nsec -= 1000000000;
    }
    return then;
}

/* Waits as the call says, which found a full queue or no message, and tries again whenever the thread is woken.
 * Returns the code of the last try, where that ended the wait or the time is over. */
static mach_msg_return_t wait_and_try(gm_message_call *call, mach_msg_return_t code, const struct timespec *until)
{
    const enum gm_next state = call->next;
    gm_waiter *const waiter = &gm_self.waiter;
    gm_line_up(waiter, call);
    while (gm_sleep(waiter, until)) {
        code = gm_next_try(call);
        if (call->next != state)
            break;
        gm_counts.vain++;
        if (call->on.identity != waiter->on.identity || call->on.kind != waiter->on.kind) {
            gm_leave(waiter, true); /* the destination's name is of another port now */
            gm_line_up(waiter, call);
        }
        waiter->woken = false;
    }
    gm_leave(waiter, code != MACH_MSG_SUCCESS);
    gm_probe();
    return code;
}

/* The same, for at most as many milliseconds as the call says, where it has this option. */
static mach_msg_return_t wait_in_time(gm_message_call *call, mach_msg_return_t code, mach_msg_option_t limit)
{
    struct timespec until;
    if ((call->option & limit) == 0)
        return wait_and_try(call, code, NULL);
    until = after(call->timeout);
    return wait_and_try(call, code, &until);
}

/* Goes on with a call that hasn't ended with its first try: sends, and then receives. */
static mach_msg_return_t go_on(gm_message_call *call, mach_msg_return_t code)
{
    if (call->next == GM_WAITS_FOR_ROOM)
        code = wait_in_time(call, code, MACH_SEND_TIMEOUT);
    if (call->next == GM_SENT)
        code = gm_next_try(call);
    if (call->next == GM_WAITS_FOR_MESSAGE)
        code = wait_in_time(call, code, MACH_RCV_TIMEOUT);
    return code;
}

/* Where a message was too long, its length is told in the header. */
static void tell_length(const gm_message_call *call)
{
    if (call->room >= sizeof *call->buffer)
        call->buffer->msgh_size = (mach_msg_size_t)call->length;
}

/* With the lock held. */
static inline mach_msg_return_t make_call(gm_message_call *call)
{
    mach_msg_return_t code = gm_first_try(call);
    if (call->next != GM_DONE)
        code = go_on(call, code);
    if (code == MACH_RCV_TOO_LARGE)
        tell_length(call);
    return code;
}

/* The same, where data goes out of line. Gives up the lock. */
static mach_msg_return_t make_call_out_of_line(gm_message_call *call)
{
    mach_msg_return_t code = gm_prepare_out_of_line(call);
    if (code == MACH_MSG_SUCCESS)
        code = make_call(call);
    pthread_mutex_unlock(&gm_mutex);
    gm_finish_out_of_line(call);
    return code;
}

mach_msg_return_t mach_msg(mach_msg_header_t *msg, mach_msg_option_t option, mach_msg_size_t send_size,
                           mach_msg_size_t rcv_size, mach_port_name_t rcv_name, mach_msg_timeout_t timeout,
                           mach_port_name_t notify)
{
    gm_message_call call;
    mach_msg_return_t code;
    (void)notify;
    call.buffer = msg;
    call.send_size = send_size;
    call.room = rcv_size;
    call.name = rcv_name;
    call.option = option;
    call.timeout = timeout;
    code = gm_begin();
    if (code != KERN_SUCCESS)
        return code;
    if (gm_out_of_line)
        return make_call_out_of_line(&call);
    code = make_call(&call);
    pthread_mutex_unlock(&gm_mutex);
    return code;
}
