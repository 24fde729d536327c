/* A server, three clients and their watchers, over the stubs that MIG made of store.defs and watcher.defs. Each client is a
 * task of two threads: one asks, and one serves the client's watcher, to which the server sends. At last the server's task
 * ends, and its clients learn of it. Only main prints, once threads have ended. */
#define _POSIX_C_SOURCE 200809L
#include "store_server.h"

#include "store.h"
#include "watcher_S.h"

#include <mach/gelvonds.h>
#include <pthread.h>
#include <stdio.h>
#include <stdlib.h>
#include <string.h>

extern boolean_t watcher_server(mach_msg_header_t *request, mach_msg_header_t *reply);

enum { CLIENTS = 3, ROUNDS = 40, VALUE = 1024, NUMBERS = 16 };

struct client {
    int number;
    task_t task;
    char key[sizeof(store_key_t)];
    mach_port_t store;   /* a send right */
    mach_port_t watcher; /* a receive right */
    int matched;         /* rounds in which all that came back was right */
    int timed_out;
    int changes, removals; /* what the watcher was told */
    mach_msg_return_t watch_ended;
};

/* The client of this thread. */
static _Thread_local struct client *own;

/* Ends the program where a call returns another code than it has to. */
static void expect(const char *what, kern_return_t code, kern_return_t wanted) {
    if (code == wanted)
        return;
    fprintf(stderr, "%s: %s\n", what, mach_error_string(code));
    exit(1);
}

static void require(const char *what, kern_return_t code) { expect(what, code, KERN_SUCCESS); }

static void must_be(const char *what, long is, long wanted) {
    if (is == wanted)
        return;
    fprintf(stderr, "%s: %ld, and not %ld\n", what, is, wanted);
    exit(1);
}

static pthread_t start(task_t task, void *(*run)(void *), void *argument) {
    pthread_t thread;
    require("thread_create", gelvonds_mach_thread_create(task, run, argument, &thread));
    return thread;
}

/* ---- a client's watcher ---- */

kern_return_t do_watcher_changed(mach_port_t watcher, const_store_key_t key, int length) {
    (void)watcher;
    must_be("the watched key", strcmp(key, own->key), 0);
    must_be("a length below 0", length < 0, 0);
    own->changes++;
    return KERN_SUCCESS;
}

/* The key is gone, so the watcher goes. The next receive by its name is refused, and mach_msg_server returns. */
kern_return_t do_watcher_removed(mach_port_t watcher, const_store_key_t key) {
    must_be("the watched key", strcmp(key, own->key), 0);
    own->removals++;
    return mach_port_mod_refs(mach_task_self(), watcher, MACH_PORT_RIGHT_RECEIVE, -1);
}

static void *watch(void *client) {
    own = client;
    own->watch_ended = mach_msg_server(watcher_server, 256, own->watcher);
    return NULL;
}

/* ---- a client's requests ---- */

/* Puts a value, and reads it back whole, in part, and its length. */
static void one_round(int round) {
    char value[VALUE], back[VALUE];
    natural_t numbers[NUMBERS], lengths[NUMBERS];
    mach_msg_type_number_t length = (mach_msg_type_number_t)(round * 37 % VALUE + 2), count = VALUE;
    mach_msg_type_number_t asked = (mach_msg_type_number_t)(round % NUMBERS + 1);
    int number;
    for (mach_msg_type_number_t i = 0; i < length; i++)
        value[i] = (char)(own->number + round + (int)i);
    require("store_put", store_put(own->store, own->key, value, length, &number));
    require("store_get", store_get(own->store, own->key, back, &count));
    must_be("the value's length", count, length);
    must_be("the value", memcmp(value, back, length), 0);
    count = VALUE;
    require("store_get_part", store_get_part(own->store, number, 1, (int)length / 2, back, &count));
    must_be("the part's length", count, length / 2);
    must_be("the part", memcmp(value + 1, back, length / 2), 0);
    for (mach_msg_type_number_t i = 0; i < asked; i++)
        numbers[i] = (natural_t)number;
    count = NUMBERS;
    require("store_lengths", store_lengths(own->store, numbers, asked, lengths, &count));
    must_be("the number of lengths", count, asked);
    for (mach_msg_type_number_t i = 0; i < asked; i++)
        must_be("a length", lengths[i], length);
    own->matched++;
}

/* Watches the client's key. A second watcher is refused, and the server's loop gives up the right that came with it. */
static void begin_to_watch(pthread_t *watching) {
    require("allocate", mach_port_allocate(mach_task_self(), MACH_PORT_RIGHT_RECEIVE, &own->watcher));
    require("store_watch", store_watch(own->store, own->key, own->watcher));
    expect("store_watch", store_watch(own->store, own->key, own->watcher), KERN_RESOURCE_SHORTAGE);
    *watching = start(own->task, watch, own);
}

/* Two rights for one port come under one name, with two references. Once both are gone, the server closes the port. */
static void open_entry(void) {
    mach_port_t entry, again;
    mach_port_urefs_t references;
    int length;
    require("store_open", store_open(own->store, own->key, &entry));
    require("store_open", store_open(own->store, own->key, &again));
    must_be("the second name", again, entry);
    require("get_refs", mach_port_get_refs(mach_task_self(), entry, MACH_PORT_RIGHT_SEND, &references));
    must_be("the references", references, 2);
    require("entry_append", entry_append(entry, "more", 4, &length));
    require("mod_refs", mach_port_mod_refs(mach_task_self(), entry, MACH_PORT_RIGHT_SEND, -2));
}

/* Makes a port, asks it, and gives the receive right away: the server answers what waits in the queue. Returns the
 * client's send right. */
static mach_port_t hand_over(void) {
    mach_port_t port;
    int entries, bytes, watchers, opened;
    require("allocate", mach_port_allocate(mach_task_self(), MACH_PORT_RIGHT_RECEIVE, &port));
    require("insert_right", mach_port_insert_right(mach_task_self(), port, port, MACH_MSG_TYPE_MAKE_SEND));
    require("store_remove", store_remove(port, "no such key"));
    require("store_adopt", store_adopt(own->store, port));
    require("store_report", store_report(port, &entries, &bytes, &watchers, &opened));
    return port;
}

/* Gives the server the right by each disposition, and asks by whatever right it returns. */
static void exchange(mach_port_t port) {
    static const mach_msg_type_name_t dispositions[] = { MACH_MSG_TYPE_COPY_SEND, MACH_MSG_TYPE_MOVE_SEND };
    for (int i = 0; i < 2; i++) {
        mach_port_t before;
        int entries, bytes, watchers, opened;
        require("store_exchange", store_exchange(own->store, port, dispositions[i], &before));
        if (before == MACH_PORT_NULL)
            continue;
        require("store_report", store_report(before, &entries, &bytes, &watchers, &opened));
        require("deallocate", mach_port_deallocate(mach_task_self(), before));
    }
}

static void *ask(void *client) {
    pthread_t watching;
    int number;
    own = client;
    require("get_bootstrap_port", task_get_bootstrap_port(mach_task_self(), &own->store));
    snprintf(own->key, sizeof own->key, "key of client %d", own->number);
    require("store_put", store_put(own->store, own->key, "first", 5, &number));
    begin_to_watch(&watching);
    for (int round = 0; round < ROUNDS; round++)
        one_round(round);
    open_entry();
    exchange(hand_over());
    /* The stub destroys its reply port when it gives up. The server's late reply is lost, and the next call works. */
    expect("store_sleep", store_sleep(own->store, 20, 120), MACH_RCV_TIMED_OUT);
    own->timed_out++;
    require("store_remove", store_remove(own->store, own->key));
    pthread_join(watching, NULL);
    return NULL;
}

/* ---- main ---- */

static void *serve(void *code) {
    *(mach_msg_return_t *)code = store_serve();
    return NULL;
}

/* Notices come in their own time: asks until the server has no watchers and no open entries. */
static void await_notices(mach_port_t store) {
    int entries, bytes, watchers, opened;
    do
        require("store_report", store_report(store, &entries, &bytes, &watchers, &opened));
    while (watchers != 0 || opened != 0);
    printf("the store has %d entries and %d bytes\n", entries, bytes);
}

/* Ends the server's task. A request is refused then, and a dead-name notice comes. */
static void end_server(task_t server, mach_port_t store) {
    mach_dead_name_notification_t notice;
    mach_port_t notices, previous;
    int entries, bytes, watchers, opened;
    require("allocate", mach_port_allocate(mach_task_self(), MACH_PORT_RIGHT_RECEIVE, &notices));
    require("request_notification",
            mach_port_request_notification(mach_task_self(), store, MACH_NOTIFY_DEAD_NAME, 0, notices,
                                           MACH_MSG_TYPE_MAKE_SEND_ONCE, &previous));
    require("task_terminate", task_terminate(server));
    expect("store_report", store_report(store, &entries, &bytes, &watchers, &opened), MACH_SEND_INVALID_DEST);
    require("mach_msg", mach_msg(&notice.not_header, MACH_RCV_MSG, 0, sizeof notice, notices, MACH_MSG_TIMEOUT_NONE,
                                 MACH_PORT_NULL));
    must_be("the notice's id", notice.not_header.msgh_id, MACH_NOTIFY_DEAD_NAME);
    must_be("the notice's name", notice.not_port, store);
    printf("the server's task has ended, and a notice said so\n");
}

static void print_client(const struct client *client) {
    printf("client %d: %d rounds were right, %d call gave up\n", client->number, client->matched, client->timed_out);
    printf("watcher %d: %d changes and %d removal, and then %s\n", client->number, client->changes, client->removals,
           mach_error_string(client->watch_ended));
}

/* Makes the clients, each with the store as its bootstrap port, and returns once all have ended. */
static void run_clients(mach_port_t store) {
    struct client clients[CLIENTS];
    pthread_t threads[CLIENTS];
    memset(clients, 0, sizeof clients);
    for (int i = 0; i < CLIENTS; i++) {
        clients[i].number = i + 1;
        require("task_create", gelvonds_mach_task_create(&clients[i].task));
        require("set_bootstrap_port", task_set_bootstrap_port(clients[i].task, store));
        threads[i] = start(clients[i].task, ask, &clients[i]);
    }
    for (int i = 0; i < CLIENTS; i++)
        pthread_join(threads[i], NULL);
    for (int i = 0; i < CLIENTS; i++)
        print_client(&clients[i]);
}

int main(void) {
    task_t server;
    pthread_t serving;
    mach_port_t service, store;
    mach_msg_type_name_t kind;
    mach_msg_return_t ended = KERN_SUCCESS;
    require("task_create", gelvonds_mach_task_create(&server));
    store_prepare(server, &service);
    require("extract_right", mach_port_extract_right(server, service, MACH_MSG_TYPE_MAKE_SEND, &store, &kind));
    serving = start(server, serve, &ended);
    run_clients(store);
    await_notices(store);
    end_server(server, store);
    pthread_join(serving, NULL);
    printf("server: %d ports adopted, %d rights exchanged\n", store_account.adopted, store_account.exchanged);
    printf("server: %d watchers gone, %d entries closed\n", store_account.watchers_gone, store_account.closed);
    printf("the server's loop ended by %s\n", mach_error_string(ended));
    return 0;
}
