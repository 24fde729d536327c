/* Threads that wait for a place in a full queue, in their stubs: MIG's stub of a simpleroutine (watcher.defs) only sends. Four
 * senders get their places one after the other, and no message is lost. Then a wait ends in each other way: by a timeout,
 * a raised limit, a new name and the port's death. Only main prints. */
#define _POSIX_C_SOURCE 200809L
#include "watcher.h"
#include "watcher_S.h"

#include <mach/gelvonds.h>
#include <mach/mach.h>
#include <pthread.h>
#include <stdio.h>
#include <stdlib.h>
#include <time.h>

extern boolean_t watcher_server(mach_msg_header_t *request, mach_msg_header_t *reply);

enum { SENDERS = 4, MESSAGES = 150, NAME = 50, NEW_NAME = 60, LIMITED = 50 };

/* Ends the program where a call returns another code than it has to. */
static void expect(const char *what, kern_return_t code, kern_return_t wanted) {
    if (code == wanted)
        return;
    fprintf(stderr, "%s: %s\n", what, mach_error_string(code));
    exit(1);
}

static void require(const char *what, kern_return_t code) { expect(what, code, KERN_SUCCESS); }

static pthread_t start(task_t task, void *(*run)(void *), void *argument) {
    pthread_t thread;
    require("thread_create", gelvonds_mach_thread_create(task, run, argument, &thread));
    return thread;
}

/* Returns once so many threads wait for a place. */
static void await_waiting_senders(unsigned number) {
    const struct timespec time = { 0, 1000000 };
    gelvonds_mach_counts_t counts;
    for (;;) {
        gelvonds_mach_get_counts(&counts);
        if (counts.waiting_senders == number)
            return;
        nanosleep(&time, NULL);
    }
}

/* A port of main's task, with a queue of one place. */
static mach_port_t short_queue(void) {
    mach_port_t port;
    require("allocate", mach_port_allocate(mach_task_self(), MACH_PORT_RIGHT_RECEIVE, &port));
    require("set_qlimit", mach_port_set_qlimit(mach_task_self(), port, 1));
    return port;
}

/* A task with a send right for the port, under NAME. */
static task_t task_with_right_for(mach_port_t port) {
    task_t task;
    require("task_create", gelvonds_mach_task_create(&task));
    require("insert_right", mach_port_insert_right(task, NAME, port, MACH_MSG_TYPE_MAKE_SEND));
    return task;
}

/* ---- senders that wait in turn ---- */

/* The messages of a sender that came; its key is its letter. */
static int came[SENDERS];
static int out_of_order;

kern_return_t do_watcher_changed(mach_port_t watcher, const_store_key_t key, int number) {
    int sender = key[0] - 'a', sum = 0;
    if (sender < 0 || sender >= SENDERS)
        return KERN_INVALID_ARGUMENT;
    out_of_order += number != came[sender];
    came[sender]++;
    for (int i = 0; i < SENDERS; i++)
        sum += came[i];
    /* The last message: without the receive right the server's loop ends. */
    return sum < SENDERS * MESSAGES ? KERN_SUCCESS
                                    : mach_port_mod_refs(mach_task_self(), watcher, MACH_PORT_RIGHT_RECEIVE, -1);
}

kern_return_t do_watcher_removed(mach_port_t watcher, const_store_key_t key) {
    (void)watcher;
    (void)key;
    return KERN_SUCCESS;
}

static void *send_all(void *letter) {
    const char key[2] = { *(const char *)letter, 0 };
    for (int number = 0; number < MESSAGES; number++)
        require("watcher_changed", watcher_changed(NAME, key, number));
    return NULL;
}

static void many_senders(void) {
    static const char letters[SENDERS] = { 'a', 'b', 'c', 'd' };
    mach_port_t port = short_queue();
    pthread_t threads[SENDERS];
    for (int i = 0; i < SENDERS; i++)
        threads[i] = start(task_with_right_for(port), send_all, (void *)&letters[i]);
    await_waiting_senders(SENDERS);
    printf("%d senders wait for one place\n", SENDERS);
    expect("mach_msg_server", mach_msg_server(watcher_server, 256, port), MACH_RCV_INVALID_NAME);
    for (int i = 0; i < SENDERS; i++) {
        pthread_join(threads[i], NULL);
        printf("sender %c: %d messages\n", letters[i], came[i]);
    }
    printf("%d messages came out of order\n", out_of_order);
}

/* ---- waits that end otherwise ---- */

static task_t client;
static mach_port_t unserved; /* main's name of the port; its queue stays full */

/* Sends a message of a header alone, and waits for a place no longer than so many milliseconds. */
static mach_msg_return_t send_within(mach_port_t to, mach_msg_timeout_t milliseconds) {
    mach_msg_header_t message = { .msgh_bits = MACH_MSGH_BITS(MACH_MSG_TYPE_COPY_SEND, 0), .msgh_remote_port = to };
    return mach_msg(&message, MACH_SEND_MSG | MACH_SEND_TIMEOUT, sizeof message, 0, MACH_PORT_NULL, milliseconds,
                    MACH_PORT_NULL);
}

/* The milliseconds since then. */
static long since(const struct timespec *then) {
    struct timespec now;
    clock_gettime(CLOCK_MONOTONIC, &now);
    return (now.tv_sec - then->tv_sec) * 1000 + (now.tv_nsec - then->tv_nsec) / 1000000;
}

static void *fill_and_give_up(void *unused) {
    struct timespec then;
    long waited;
    (void)unused;
    require("a send with a place", send_within(NAME, 0));
    expect("a send that doesn't wait", send_within(NAME, 0), MACH_SEND_TIMED_OUT);
    clock_gettime(CLOCK_MONOTONIC, &then);
    expect("a send that waits", send_within(NAME, LIMITED), MACH_SEND_TIMED_OUT);
    waited = since(&then);
    printf("a send with a timeout gave up %s\n", waited < LIMITED ? "too early" : "once its time was over");
    return NULL;
}

static void *send_one(void *code) {
    *(kern_return_t *)code = watcher_removed(NAME, "waits");
    return NULL;
}

/* Starts a sender of the client's, makes the change once it waits, and prints what its stub returns. */
static void wait_until(const char *what, void (*change)(void)) {
    kern_return_t code = KERN_SUCCESS;
    pthread_t thread = start(client, send_one, &code);
    await_waiting_senders(1);
    change();
    pthread_join(thread, NULL);
    printf("%s: %s\n", what, mach_error_string(code));
}

static void raise_limit(void) { require("set_qlimit", mach_port_set_qlimit(mach_task_self(), unserved, 2)); }

/* The sender's next try is by a name under which there is nothing now, at the rename or once there is a place. */
static void rename_and_make_place(void) {
    union {
        mach_msg_header_t header;
        char bytes[256];
    } message;
    require("rename", mach_port_rename(client, NAME, NEW_NAME));
    require("mach_msg", mach_msg(&message.header, MACH_RCV_MSG, 0, sizeof message, unserved, MACH_MSG_TIMEOUT_NONE,
                                 MACH_PORT_NULL));
}

static void end_port(void) {
    require("mod_refs", mach_port_mod_refs(mach_task_self(), unserved, MACH_PORT_RIGHT_RECEIVE, -1));
}

int main(void) {
    many_senders();
    unserved = short_queue();
    client = task_with_right_for(unserved);
    pthread_join(start(client, fill_and_give_up, NULL), NULL);
    wait_until("the limit is raised", raise_limit);
    wait_until("the name is another", rename_and_make_place);
    require("set_qlimit", mach_port_set_qlimit(mach_task_self(), unserved, 1));
    require("rename", mach_port_rename(client, NEW_NAME, NAME));
    wait_until("the port has died", end_port);
    return 0;
}
