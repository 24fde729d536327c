/* How a wait ends in another way than by its message or its place, and that whoever waits behind it goes on: a
 * timeout, a cancelled thread, a death, a move, a renamed destination, the end of a task. */
#define _DEFAULT_SOURCE 1
#include "check.h"

#include <time.h>

static gelvonds_mach_counts_t counts_now(void)
{
    gelvonds_mach_counts_t counts;
    gelvonds_mach_get_counts(&counts);
    return counts;
}

/* Until so many threads wait to receive, and to send. */
static void until_waiting(uint64_t receivers, uint64_t senders)
{
    const struct timespec time = { 0, 200000 };
    while (counts_now().waiting_receivers != receivers || counts_now().waiting_senders != senders)
        nanosleep(&time, NULL);
}

typedef struct {
    mach_port_t port;
    mach_msg_return_t wanted;
    mach_msg_option_t option;
    mach_msg_timeout_t timeout;
} wait;

static void *receive_one(void *given)
{
    const wait *const how = given;
    number_message message;
    WANT(receive_number(how->port, &message, how->option, how->timeout), how->wanted);
    return NULL;
}

static void *send_one(void *given)
{
    const wait *const how = given;
    WANT(send_number(how->port, 1, MACH_PORT_NULL, how->option, how->timeout), how->wanted);
    return NULL;
}

static pthread_t starts(void *(*run)(void *), wait *how)
{
    pthread_t thread;
    if (pthread_create(&thread, NULL, run, how) != 0)
        abort();
    return thread;
}

/* A port whose queue has one place, and a message in it. */
static mach_port_t full_port(void)
{
    const mach_port_t port = new_port();
    MUST(mach_port_set_qlimit(mach_task_self(), port, 1));
    MUST(send_number(port, 0, MACH_PORT_NULL, 0, 0));
    return port;
}

/* One is cancelled just as a message comes: the other one gets it. */
static void test_cancelled_receiver(void)
{
    mach_port_t port = new_port();
    wait how = { port, MACH_MSG_SUCCESS, 0, 0 };
    for (int i = 0; i < 50; i++) {
        pthread_t first = starts(receive_one, &how), second;
        until_waiting(1, 0);
        second = starts(receive_one, &how);
        until_waiting(2, 0);
        pthread_cancel(first);
        MUST(send_number(port, 1, MACH_PORT_NULL, 0, 0));
        MUST(send_number(port, 1, MACH_PORT_NULL, 0, 0));
        pthread_join(first, NULL);
        pthread_join(second, NULL);
        while (counts_now().waiting_receivers != 0)
            ;
        for (number_message left; receive_number(port, &left, MACH_RCV_TIMEOUT, 0) == MACH_MSG_SUCCESS;)
            ;
    }
    MUST(mach_port_destroy(mach_task_self(), port));
}

static void test_cancelled_sender(void)
{
    for (int i = 0; i < 50; i++) {
        mach_port_t port = full_port();
        wait how = { port, MACH_MSG_SUCCESS, 0, 0 };
        number_message message;
        pthread_t first = starts(send_one, &how), second;
        until_waiting(0, 1);
        second = starts(send_one, &how);
        until_waiting(0, 2);
        pthread_cancel(first);
        MUST(receive_number(port, &message, 0, 0));
        pthread_join(first, NULL);
        MUST(receive_number(port, &message, 0, 0));
        receive_number(port, &message, MACH_RCV_TIMEOUT, 0); /* (the first may have been sent after all) */
        pthread_join(second, NULL);
        MUST(mach_port_destroy(mach_task_self(), port));
    }
}

static void test_deaths(void)
{
    mach_port_t empty = new_port(), full = full_port();
    wait to_receive = { empty, MACH_RCV_PORT_DIED, 0, 0 }, to_send = { full, MACH_SEND_INVALID_DEST, 0, 0 };
    pthread_t threads[6];
    for (int i = 0; i < 3; i++) {
        threads[i] = starts(receive_one, &to_receive);
        threads[3 + i] = starts(send_one, &to_send);
    }
    until_waiting(3, 3);
    MUST(mach_port_destroy(mach_task_self(), empty));
    MUST(mach_port_mod_refs(mach_task_self(), full, MACH_PORT_RIGHT_RECEIVE, -1));
    for (int i = 0; i < 6; i++)
        pthread_join(threads[i], NULL);
    MUST(mach_port_destroy(mach_task_self(), full));
}

/* The port goes into a set; a message waits in the set for one that comes. */
static void test_moves(void)
{
    mach_port_t port = new_port(), set;
    wait on_port = { port, MACH_RCV_PORT_CHANGED, 0, 0 }, on_set = { MACH_PORT_NULL, MACH_MSG_SUCCESS, 0, 0 };
    pthread_t threads[4];
    MUST(mach_port_allocate(mach_task_self(), MACH_PORT_RIGHT_PORT_SET, &set));
    on_set.port = set;
    threads[0] = starts(receive_one, &on_port);
    threads[1] = starts(receive_one, &on_port);
    until_waiting(2, 0);
    MUST(mach_port_move_member(mach_task_self(), port, set));
    pthread_join(threads[0], NULL);
    pthread_join(threads[1], NULL);
    MUST(mach_port_move_member(mach_task_self(), port, MACH_PORT_NULL));
    MUST(send_number(port, 1, MACH_PORT_NULL, 0, 0));
    MUST(send_number(port, 2, MACH_PORT_NULL, 0, 0));
    threads[2] = starts(receive_one, &on_set);
    threads[3] = starts(receive_one, &on_set);
    until_waiting(2, 0);
    MUST(mach_port_move_member(mach_task_self(), port, set));
    pthread_join(threads[2], NULL);
    pthread_join(threads[3], NULL);
    MUST(mach_port_destroy(mach_task_self(), set));
    MUST(mach_port_destroy(mach_task_self(), port));
}

/* More places for all; and a name that another right has now. */
static void test_places(void)
{
    mach_port_t full = full_port();
    wait done = { full, MACH_MSG_SUCCESS, 0, 0 }, gone = { full, MACH_SEND_INVALID_DEST, 0, 0 };
    pthread_t threads[3];
    for (int i = 0; i < 3; i++)
        threads[i] = starts(send_one, &done);
    until_waiting(0, 3);
    MUST(mach_port_set_qlimit(mach_task_self(), full, 4));
    for (int i = 0; i < 3; i++)
        pthread_join(threads[i], NULL);
    threads[0] = starts(send_one, &gone);
    until_waiting(0, 1);
    MUST(mach_port_rename(mach_task_self(), full, 5555));
    pthread_join(threads[0], NULL);
    MUST(mach_port_destroy(mach_task_self(), 5555));
}

/* Another thread's message takes the send right away that one waits with. */
static void test_moved_right(void)
{
    mach_port_t full = full_port(), other = new_port();
    wait gone = { full, MACH_SEND_INVALID_DEST, 0, 0 };
    number_message message;
    pthread_t thread = starts(send_one, &gone);
    until_waiting(0, 1);
    message.head.msgh_bits = MACH_MSGH_BITS(MACH_MSG_TYPE_COPY_SEND, MACH_MSG_TYPE_MOVE_SEND);
    message.head.msgh_remote_port = other;
    message.head.msgh_local_port = full;
    message.head.msgh_id = 1;
    message.number = 0;
    MUST(mach_msg(&message.head, MACH_SEND_MSG, sizeof message, 0, MACH_PORT_NULL, 0, MACH_PORT_NULL));
    pthread_join(thread, NULL);
    MUST(mach_port_destroy(mach_task_self(), full));
    MUST(mach_port_destroy(mach_task_self(), other));
}

static void *wait_in_task(void *given)
{
    number_message message;
    mach_port_t port = *(bool *)given ? full_port() : new_port();
    if (*(bool *)given)
        WANT(send_number(port, 1, MACH_PORT_NULL, 0, 0), KERN_INVALID_TASK);
    else
        WANT(receive_number(port, &message, 0, 0), KERN_INVALID_TASK);
    WANT(receive_number(port, &message, 0, 0), KERN_INVALID_TASK);
    return NULL;
}

static void *wait_on_empty_set(void *unused)
{
    number_message message;
    mach_port_t set;
    (void)unused;
    MUST(mach_port_allocate(mach_task_self(), MACH_PORT_RIGHT_PORT_SET, &set));
    WANT(receive_number(set, &message, 0, 0), KERN_INVALID_TASK);
    return NULL;
}

static void test_ended_task(void)
{
    bool sends = true, receives = false;
    task_t task;
    pthread_t threads[3];
    MUST(gelvonds_mach_task_create(&task));
    MUST(gelvonds_mach_thread_create(task, wait_in_task, &sends, &threads[0]));
    MUST(gelvonds_mach_thread_create(task, wait_in_task, &receives, &threads[1]));
    MUST(gelvonds_mach_thread_create(task, wait_on_empty_set, NULL, &threads[2]));
    until_waiting(2, 1);
    MUST(task_terminate(task));
    for (int i = 0; i < 3; i++)
        pthread_join(threads[i], NULL);
    MUST(gelvonds_mach_task_create(&task)); /* one that has no port */
    MUST(gelvonds_mach_thread_create(task, wait_on_empty_set, NULL, &threads[0]));
    until_waiting(1, 0);
    MUST(task_terminate(task));
    pthread_join(threads[0], NULL);
}

/* Many that wait for a short time, while messages come: each message that was sent is received. */
static void *receive_in_time(void *given)
{
    uintptr_t received = 0;
    number_message message;
    for (int i = 0; i < 200; i++)
        received += receive_number(*(mach_port_t *)given, &message, MACH_RCV_TIMEOUT, 1) == MACH_MSG_SUCCESS;
    return (void *)received;
}

static void test_timeouts(void)
{
    mach_port_t port = new_port();
    pthread_t threads[6];
    uintptr_t all = 0, sent = 0;
    number_message message;
    for (int i = 0; i < 6; i++)
        pthread_create(&threads[i], NULL, receive_in_time, &port);
    for (uint32_t i = 0; i < 600; i++)
        sent += send_number(port, i, MACH_PORT_NULL, MACH_SEND_TIMEOUT, 1) == MACH_MSG_SUCCESS;
    for (int i = 0; i < 6; i++) {
        void *received;
        pthread_join(threads[i], &received);
        all += (uintptr_t)received;
    }
    while (receive_number(port, &message, MACH_RCV_TIMEOUT, 0) == MACH_MSG_SUCCESS)
        all++;
    IS(all, sent);
    MUST(mach_port_destroy(mach_task_self(), port));
}

int main(void)
{
    test_cancelled_receiver();
    test_cancelled_sender();
    test_deaths();
    test_moves();
    test_places();
    test_moved_right();
    test_ended_task();
    test_timeouts();
    return ends();
}
