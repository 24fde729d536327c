/* The threads that wait, and which of them a call of the kernel wakes.
 *
 * Those that wait for the same stand in one line, in the order of their arrival: receivers of one port or set, or
 * senders for a place in one port's queue. One message more, or one place more, wakes the first that isn't woken yet.
 * So there are as many woken threads as messages or places, or no others in the line. One that leaves without what it
 * was woken for wakes the next. A change of another kind wakes each that it may concern. */
#include "layer.h"

#include <stdlib.h>

enum { LINES = 256 };

/* Lines whose numbers are the same are one list. */
static struct {
    gm_waiter *first, *last;
} lines[LINES];

static gm_waiter *senders, *receivers;

gelvonds_mach_counts_t gm_counts;

static unsigned line_of(gelvonds_waited on, bool sends)
{
    return (unsigned)(on.identity * 4 + (on.kind & 1) * 2 + sends) % LINES;
}

static bool waits_for(const gm_waiter *waiter, gelvonds_waited on, bool sends)
{
    return waiter->on.identity == on.identity && waiter->on.kind == on.kind && waiter->sends == sends;
}

static void wake(gm_waiter *waiter)
{
    if (waiter->woken)
        return;
    waiter->woken = true;
    gm_counts.woken++;
    pthread_cond_signal(&waiter->condition);
}

static void wake_line(gelvonds_waited on, bool sends, bool all)
{
    for (gm_waiter *it = lines[line_of(on, sends)].first; it != NULL; it = it->next) {
        if (it->woken || !waits_for(it, on, sends))
            continue;
        wake(it);
        if (!all)
            return;
    }
}

static void wake_list(gm_waiter *first, const gelvonds_task *task)
{
    for (gm_waiter *it = first; it != NULL; it = it->next_all)
        if (task == NULL || it->task == *task)
            wake(it);
}

static void wake_place(gelvonds_waited on, enum gm_step step)
{
    if (on.kind != GELVONDS_PORT && on.kind != GELVONDS_SET)
        return;
    if (step == GM_SENDS || step == GM_CHANGES)
        wake_line(on, false, step == GM_CHANGES);
    if (step == GM_RECEIVES || step == GM_CHANGES)
        wake_line(on, true, step == GM_CHANGES);
}

void gm_wake_touched(enum gm_step step)
{
    gelvonds_touched_places touched;
    if (step == GM_ASKED)
        return;
    if (gelvonds_touched(&gm_kernel, &touched) != KERN_SUCCESS || touched.all != 0) {
        wake_list(senders, NULL);
        wake_list(receivers, NULL);
    } else {
        for (int i = 0; i < 4; i++)
            wake_place(touched.on[i], step);
    }
}

void gm_wake_task(gelvonds_task task)
{
    wake_list(senders, &task);
    wake_list(receivers, &task);
}

void gm_wake_senders_of(gelvonds_task task)
{
    wake_list(senders, &task);
}

/* ---- into a line, and out of it ---- */

static void prepare_condition(pthread_cond_t *condition)
{
    pthread_condattr_t attributes;
    pthread_condattr_init(&attributes);
    pthread_condattr_setclock(&attributes, CLOCK_MONOTONIC);
    pthread_cond_init(condition, &attributes);
    pthread_condattr_destroy(&attributes);
}

static void join_list(gm_waiter **list, gm_waiter *waiter)
{
    waiter->previous_all = NULL;
    waiter->next_all = *list;
    if (*list != NULL)
        (*list)->previous_all = waiter;
    *list = waiter;
}

void gm_line_up(gm_waiter *waiter, gm_message_call *call)
{
    const unsigned line = line_of(call->on, call->next == GM_WAITS_FOR_ROOM);
    if (!gm_self.can_wait)
        prepare_condition(&waiter->condition);
    gm_self.can_wait = true;
    waiter->call = call;
    waiter->task = gm_self.task;
    waiter->on = call->on;
    waiter->sends = call->next == GM_WAITS_FOR_ROOM;
    waiter->woken = false;
    waiter->next = NULL;
    waiter->previous = lines[line].last;
    if (lines[line].last != NULL)
        lines[line].last->next = waiter;
    else
        lines[line].first = waiter;
    lines[line].last = waiter;
    join_list(waiter->sends ? &senders : &receivers, waiter);
    *(waiter->sends ? &gm_counts.waiting_senders : &gm_counts.waiting_receivers) += 1;
}

void gm_leave(gm_waiter *waiter, bool without)
{
    const unsigned line = line_of(waiter->on, waiter->sends);
    *(waiter->previous != NULL ? &waiter->previous->next : &lines[line].first) = waiter->next;
    *(waiter->next != NULL ? &waiter->next->previous : &lines[line].last) = waiter->previous;
    if (waiter->previous_all != NULL)
        waiter->previous_all->next_all = waiter->next_all;
    else
        *(waiter->sends ? &senders : &receivers) = waiter->next_all;
    if (waiter->next_all != NULL)
        waiter->next_all->previous_all = waiter->previous_all;
    *(waiter->sends ? &gm_counts.waiting_senders : &gm_counts.waiting_receivers) -= 1;
    if (waiter->woken && without)
        wake_line(waiter->on, waiter->sends, false);
}

/* ---- asleep ---- */

static void is_cancelled(void *given)
{
    gm_waiter *const waiter = given;
    gm_leave(waiter, true);
    if (gm_out_of_line)
        free(waiter->call->copy);
    pthread_mutex_unlock(&gm_mutex);
}

static void sleep_until_woken(gm_waiter *waiter, const struct timespec *until)
{
    int late = 0;
    while (!waiter->woken && late == 0)
        late = until != NULL ? pthread_cond_timedwait(&waiter->condition, &gm_mutex, until)
                             : pthread_cond_wait(&waiter->condition, &gm_mutex);
}

bool gm_sleep(gm_waiter *waiter, const struct timespec *until)
{
    pthread_cleanup_push(is_cancelled, waiter);
    sleep_until_woken(waiter, until);
    pthread_cleanup_pop(0);
    return waiter->woken;
}

#ifdef GELVONDS_MACH_TEST
gm_waiter *gm_first_waiter(bool sends)
{
    return sends ? senders : receivers;
}

bool gm_has_woken(const gm_waiter *like)
{
    for (gm_waiter *it = lines[line_of(like->on, like->sends)].first; it != NULL; it = it->next)
        if (it->woken && waits_for(it, like->on, like->sends))
            return true;
    return false;
}
#endif
