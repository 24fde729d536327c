/* A port in several sets, in a kernel of profile 3: what the calls return, and whom a message wakes. */
#define _DEFAULT_SOURCE 1
#include "check.h"

#include <time.h>

/* Until so many threads wait to receive. */
static void until_waiting(uint64_t receivers)
{
    const struct timespec time = { 0, 200000 };
    gelvonds_mach_counts_t counts;
    do {
        nanosleep(&time, NULL);
        gelvonds_mach_get_counts(&counts);
    } while (counts.waiting_receivers != receivers);
}

static mach_port_t new_set(void)
{
    mach_port_t set = MACH_PORT_NULL;
    MUST(mach_port_allocate(mach_task_self(), MACH_PORT_RIGHT_PORT_SET, &set));
    return set;
}

/* The set that the status tells: of several the one with the least name. */
static mach_port_t told_set(mach_port_t port)
{
    mach_port_status_t status = { 0 };
    MUST(mach_port_get_receive_status(mach_task_self(), port, &status));
    return status.mps_pset;
}

static void test_refusals(void)
{
    const task_t self = mach_task_self();
    mach_port_t port = new_port(), set = new_set();
    WANT(mach_port_insert_member(TASK_NULL, port, set), KERN_INVALID_TASK);
    WANT(mach_port_insert_member(self, 999, set), KERN_INVALID_NAME);
    WANT(mach_port_insert_member(self, port, 999), KERN_INVALID_NAME);
    WANT(mach_port_insert_member(self, set, set), KERN_INVALID_RIGHT);
    WANT(mach_port_insert_member(self, port, port), KERN_INVALID_RIGHT);
    WANT(mach_port_extract_member(TASK_NULL, port, set), KERN_INVALID_TASK);
    WANT(mach_port_extract_member(self, 999, set), KERN_INVALID_NAME);
    WANT(mach_port_extract_member(self, port, 999), KERN_INVALID_NAME);
    WANT(mach_port_extract_member(self, set, set), KERN_INVALID_RIGHT);
    WANT(mach_port_extract_member(self, port, port), KERN_INVALID_RIGHT);
    WANT(mach_port_extract_member(self, port, set), KERN_NOT_IN_SET);
    MUST(mach_port_insert_member(self, port, set));
    WANT(mach_port_insert_member(self, port, set), KERN_ALREADY_IN_SET);
    MUST(mach_port_destroy(self, set));
    MUST(mach_port_destroy(self, port));
}

/* A message is received by any of the port's sets, once. A port that left some is in the others still. */
static void test_sets(void)
{
    const task_t self = mach_task_self();
    mach_port_t port = new_port(), first = new_set(), second = new_set(), third = new_set();
    number_message message;
    MUST(mach_port_insert_member(self, port, third));
    MUST(mach_port_insert_member(self, port, first));
    MUST(mach_port_insert_member(self, port, second));
    IS(told_set(port), first);
    MUST(send_number(port, 1, MACH_PORT_NULL, 0, 0));
    MUST(receive_number(second, &message, 0, 0));
    IS(message.number, 1);
    IS(message.head.msgh_local_port, port);
    WANT(receive_number(first, &message, MACH_RCV_TIMEOUT, 0), MACH_RCV_TIMED_OUT);
    WANT(receive_number(third, &message, MACH_RCV_TIMEOUT, 0), MACH_RCV_TIMED_OUT);
    MUST(mach_port_extract_member(self, port, first));
    IS(told_set(port), second);
    MUST(send_number(port, 2, MACH_PORT_NULL, 0, 0));
    WANT(receive_number(first, &message, MACH_RCV_TIMEOUT, 0), MACH_RCV_TIMED_OUT);
    WANT(receive_number(port, &message, 0, 0), MACH_RCV_IN_SET);
    MUST(mach_port_destroy(self, second));
    IS(told_set(port), third);
    MUST(receive_number(third, &message, 0, 0));
    IS(message.number, 2);
    MUST(mach_port_insert_member(self, port, first));
    MUST(mach_port_move_member(self, port, MACH_PORT_NULL));
    IS(told_set(port), MACH_PORT_NULL);
    MUST(mach_port_destroy(self, first));
    MUST(mach_port_destroy(self, third));
    MUST(mach_port_destroy(self, port));
}

static void *receive_two(void *set)
{
    number_message message;
    MUST(receive_number(*(mach_port_t *)set, &message, 0, 0));
    MUST(receive_number(*(mach_port_t *)set, &message, 0, 0));
    return NULL;
}

static void *receive_one(void *set)
{
    number_message message;
    MUST(receive_number(*(mach_port_t *)set, &message, 0, 0));
    return NULL;
}

static pthread_t starts(void *(*run)(void *), mach_port_t *set)
{
    pthread_t thread;
    if (pthread_create(&thread, NULL, run, set) != 0)
        abort();
    return thread;
}

/* Threads wait by two sets of one port: whichever gets a message, none is lost, and none is received twice. */
static void test_waiting(void)
{
    const task_t self = mach_task_self();
    mach_port_t port = new_port(), sets[] = { new_set(), new_set() };
    number_message message;
    MUST(mach_port_insert_member(self, port, sets[0]));
    MUST(mach_port_insert_member(self, port, sets[1]));
    for (int round = 0; round < 100; round++) {
        const pthread_t two = starts(receive_two, &sets[round % 2]), one = starts(receive_one, &sets[1 - round % 2]);
        until_waiting(2);
        for (uint32_t i = 0; i < 3; i++)
            MUST(send_number(port, i, MACH_PORT_NULL, 0, 0));
        pthread_join(two, NULL);
        pthread_join(one, NULL);
        WANT(receive_number(sets[0], &message, MACH_RCV_TIMEOUT, 0), MACH_RCV_TIMED_OUT);
    }
    MUST(mach_port_destroy(self, sets[0]));
    MUST(mach_port_destroy(self, sets[1]));
    MUST(mach_port_destroy(self, port));
}

/* A port whose message waits enters the set that a thread waits by; one that leaves it takes its messages along. */
static void test_entering(void)
{
    const task_t self = mach_task_self();
    mach_port_t port = new_port(), set = new_set(), other = new_set();
    number_message message;
    pthread_t thread;
    MUST(mach_port_insert_member(self, port, other));
    MUST(send_number(port, 1, MACH_PORT_NULL, 0, 0));
    thread = starts(receive_one, &set);
    until_waiting(1);
    MUST(mach_port_insert_member(self, port, set));
    pthread_join(thread, NULL);
    thread = starts(receive_one, &set);
    until_waiting(1);
    MUST(mach_port_extract_member(self, port, set));
    MUST(send_number(port, 2, MACH_PORT_NULL, 0, 0));
    MUST(receive_number(other, &message, 0, 0));
    IS(message.number, 2);
    MUST(send_number(port, 3, MACH_PORT_NULL, 0, 0));
    MUST(mach_port_move_member(self, port, set));
    pthread_join(thread, NULL);
    MUST(mach_port_destroy(self, set));
    MUST(mach_port_destroy(self, other));
    MUST(mach_port_destroy(self, port));
}

int main(void)
{
    setenv("GELVONDS_PROFILE", "3", 1);
    test_refusals();
    test_sets();
    test_waiting();
    test_entering();
    return ends();
}
