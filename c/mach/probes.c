/* In a test build: after every call of the kernel, a try for each thread that waits.
 *
 * A thread that isn't woken, and whose try would not wait, was left waiting by mistake; unless another of its line is
 * woken, which takes the message or the place, or leaves and wakes the next. A try to receive has no room, so it leaves
 * the message where it is. A try to send is made only where it must be refused. */
#ifndef GELVONDS_MACH_TEST
typedef int gm_no_probes;
#else
#include "layer.h"

#include <inttypes.h>
#include <stdlib.h>

static void fail(const gm_waiter *waiter, kern_return_t code)
{
    fprintf(stderr, "gelvonds: a thread of task %" PRIu32 " was left waiting %s, and its try returns %s\n", waiter->task,
            waiter->sends ? "for a place" : "for a message", mach_error_string(code));
    gm_flush_history();
    abort();
}

static void probe_receiver(const gm_waiter *waiter)
{
    uint8_t none;
    gm_message_call try = *waiter->call;
    const gelvonds_waited before = waiter->on;
    kern_return_t code;
    try.room = 0;
    try.option |= MACH_RCV_LARGE;
    try.on = before;
    code = gelvonds_receive_again(&gm_kernel, waiter->task, &none, 0, true, &try.length, &try.on);
    gm_record_receipt(code, &try, waiter->task, &before);
    if (code != MACH_RCV_TIMED_OUT && !(code == MACH_RCV_TOO_LARGE && gm_has_woken(waiter)))
        fail(waiter, code);
}

static void probe_sender(const gm_waiter *waiter)
{
    const gm_message_call *const call = waiter->call;
    kern_return_t code;
    if (gm_has_woken(waiter))
        return;
    code = gelvonds_send(&gm_kernel, waiter->task, (const uint8_t *)call->buffer, call->send_size);
    gm_record_send(code, waiter->task, call->buffer, call->send_size);
    if (code != MACH_SEND_TIMED_OUT)
        fail(waiter, code);
}

void gm_probe(void)
{
    for (const gm_waiter *it = gm_first_waiter(false); it != NULL; it = it->next_all)
        if (!it->woken)
            probe_receiver(it);
    for (const gm_waiter *it = gm_first_waiter(true); it != NULL; it = it->next_all)
        if (!it->woken)
            probe_sender(it);
}
#endif
