/* How many threads a call wakes, and how many refused sends a message costs, as the layer counts them. */
#define _DEFAULT_SOURCE 1
#include "check.h"

#include <time.h>

enum { WAITING = 60, CALLS = 1000, SENDERS = 4, EACH = 250 };

static gelvonds_mach_counts_t counts_now(void)
{
    gelvonds_mach_counts_t counts;
    gelvonds_mach_get_counts(&counts);
    return counts;
}

static void pause_a_little(void)
{
    const struct timespec time = { 0, 200000 };
    nanosleep(&time, NULL);
}

/* Until so many threads wait to receive, woken or not. */
static void wait_for_receivers(uint64_t number)
{
    while (counts_now().waiting_receivers != number)
        pause_a_little();
}

/* Until the port's queue is empty. */
static void wait_for_queue(mach_port_t port)
{
    mach_port_status_t status;
    for (;;) {
        MUST(mach_port_get_receive_status(mach_task_self(), port, &status));
        if (status.mps_msgcount == 0)
            return;
        pause_a_little();
    }
}

/* Receives by the name until its wait is ended. */
static void *receive_all(void *given)
{
    const mach_port_name_t from = *(mach_port_name_t *)given;
    number_message message;
    uintptr_t received = 0;
    mach_msg_return_t code;
    while ((code = receive_number(from, &message, 0, 0)) == MACH_MSG_SUCCESS)
        received++;
    WANT(code, MACH_RCV_PORT_DIED);
    return (void *)received;
}

/* Replies to each request. */
static void *echo(void *given)
{
    number_message message;
    while (receive_number(*(mach_port_name_t *)given, &message, 0, 0) == MACH_MSG_SUCCESS) {
        message.head.msgh_bits = MACH_MSGH_BITS(MACH_MSGH_BITS_REMOTE(message.head.msgh_bits), 0);
        message.head.msgh_local_port = MACH_PORT_NULL;
        MUST(mach_msg(&message.head, MACH_SEND_MSG, sizeof message, 0, MACH_PORT_NULL, 0, MACH_PORT_NULL));
    }
    return NULL;
}

/* Makes CALLS requests of an echo: 2 sends and 2 receipts each, so CALLS of them are enough. */
static void make_requests(const char *beside)
{
    mach_port_t service = new_port(), replies = new_port();
    pthread_t thread;
    gelvonds_mach_counts_t before, after;
    number_message message;
    pthread_create(&thread, NULL, echo, &service);
    before = counts_now();
    for (uint32_t i = 0; i < CALLS / 4; i++) {
        MUST(send_number(service, i, replies, 0, 0));
        MUST(receive_number(replies, &message, 0, 0));
        IS(message.number, i);
    }
    after = counts_now();
    fprintf(stderr, "%d calls, %s: %lu woken, %lu tried in vain\n", CALLS, beside,
            (unsigned long)(after.woken - before.woken), (unsigned long)(after.vain - before.vain));
    IS(after.woken - before.woken <= 2 * CALLS, true);
    MUST(mach_port_destroy(mach_task_self(), service));
    MUST(mach_port_destroy(mach_task_self(), replies));
    pthread_join(thread, NULL);
}

static void test_ports_of_their_own(void)
{
    mach_port_t ports[WAITING];
    pthread_t threads[WAITING];
    for (int i = 0; i < WAITING; i++) {
        ports[i] = new_port();
        pthread_create(&threads[i], NULL, receive_all, &ports[i]);
    }
    wait_for_receivers(WAITING);
    make_requests("60 wait on ports of their own");
    for (int i = 0; i < WAITING; i++)
        MUST(mach_port_destroy(mach_task_self(), ports[i]));
    for (int i = 0; i < WAITING; i++)
        pthread_join(threads[i], NULL);
}

/* All wait on one set, to which the messages are sent. */
static void test_one_set(void)
{
    mach_port_t port = new_port(), set;
    pthread_t threads[WAITING];
    gelvonds_mach_counts_t before, after;
    uintptr_t all = 0;
    MUST(mach_port_allocate(mach_task_self(), MACH_PORT_RIGHT_PORT_SET, &set));
    MUST(mach_port_move_member(mach_task_self(), port, set));
    for (int i = 0; i < WAITING; i++)
        pthread_create(&threads[i], NULL, receive_all, &set);
    wait_for_receivers(WAITING);
    make_requests("60 wait on one set");
    before = counts_now();
    for (uint32_t i = 0; i < CALLS; i++)
        MUST(send_number(port, i, MACH_PORT_NULL, 0, 0));
    wait_for_queue(port);
    wait_for_receivers(WAITING);
    after = counts_now();
    fprintf(stderr, "%d sends to a set of 60 that wait: %lu woken, %lu in vain\n", CALLS,
            (unsigned long)(after.woken - before.woken), (unsigned long)(after.vain - before.vain));
    IS(after.woken - before.woken <= 2 * CALLS, true);
    MUST(mach_port_destroy(mach_task_self(), set));
    for (int i = 0; i < WAITING; i++) {
        void *received;
        pthread_join(threads[i], &received);
        all += (uintptr_t)received;
    }
    IS(all, CALLS);
    MUST(mach_port_destroy(mach_task_self(), port));
}

static void *send_many(void *port)
{
    for (uint32_t i = 0; i < EACH; i++)
        MUST(send_number(*(mach_port_t *)port, i, MACH_PORT_NULL, 0, 0));
    return NULL;
}

static void test_one_place(void)
{
    mach_port_t port = new_port();
    pthread_t threads[SENDERS];
    number_message message;
    uint64_t before = counts_now().refused_sends, refused;
    MUST(mach_port_set_qlimit(mach_task_self(), port, 1));
    for (int i = 0; i < SENDERS; i++)
        pthread_create(&threads[i], NULL, send_many, &port);
    for (int i = 0; i < SENDERS * EACH; i++)
        MUST(receive_number(port, &message, 0, 0));
    for (int i = 0; i < SENDERS; i++)
        pthread_join(threads[i], NULL);
    refused = counts_now().refused_sends - before;
    fprintf(stderr, "%d senders for one place: %lu refused sends for %d messages\n", SENDERS, (unsigned long)refused,
            SENDERS * EACH);
    IS(refused <= 2 * SENDERS * EACH, true);
    MUST(mach_port_destroy(mach_task_self(), port));
}

int main(void)
{
    test_ports_of_their_own();
    test_one_set();
    test_one_place();
    return ends();
}
