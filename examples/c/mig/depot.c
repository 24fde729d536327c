/* A server and two clients, over the stubs that MIG made of depot.defs: data of any length goes both ways, and arrays of
 * rights. What is longer than a message can be is refused, and the server goes on. Needs GELVONDS_OUT_OF_LINE=inline. Only
 * main prints, once threads have ended. */
#include "depot_server.h"

#include "depot.h"

#include <mach/gelvonds.h>
#include <pthread.h>
#include <stdbool.h>
#include <stdio.h>
#include <stdlib.h>
#include <string.h>

enum { CLIENTS = 2, RIGHTS = 600, INLINE = 2048 };

static const int lengths[] = { 0, 1, 100, 2048, 2049, 10000, 65000, 65536 };
enum { LENGTHS = sizeof lengths / sizeof *lengths };

/* What a client was told, for each length. */
struct outcome {
    kern_return_t put, get, reverse;
    bool right; /* whatever came back */
};

struct client {
    task_t task;
    struct outcome outcomes[LENGTHS];
};

/* Ends the program where a call returns another code than it has to. */
static void expect(const char *what, kern_return_t code, kern_return_t wanted) {
    if (code == wanted)
        return;
    fprintf(stderr, "%s: %s\n", what, mach_error_string(code));
    exit(1);
}

static void require(const char *what, kern_return_t code) { expect(what, code, KERN_SUCCESS); }

static void must_be(const char *what, long is, long wanted) {
    if (is == wanted)
        return;
    fprintf(stderr, "%s: %ld, and not %ld\n", what, is, wanted);
    exit(1);
}

static char *new_pages(int length) {
    vm_address_t at;
    require("vm_allocate", vm_allocate(mach_task_self(), &at, (vm_size_t)length, TRUE));
    return (char *)at;
}

static void give_back(const void *data, size_t size) {
    require("vm_deallocate", vm_deallocate(mach_task_self(), (vm_address_t)data, size));
}

/* ---- data ---- */

static kern_return_t put(mach_port_t depot, int length, bool *right) {
    char *const data = new_pages(length);
    int sum, wanted = 0;
    kern_return_t code;
    for (int i = 0; i < length; i++)
        wanted += data[i] = (char)(i % 5);
    code = depot_put(depot, data, (mach_msg_type_number_t)length, &sum);
    *right &= code != KERN_SUCCESS || sum == wanted;
    give_back(data, (size_t)length);
    return code;
}

/* What fits in the buffer comes there, and what doesn't in pages of the caller's. */
static kern_return_t get(mach_port_t depot, int length, bool *right) {
    char buffer[INLINE], *data = buffer;
    mach_msg_type_number_t count = sizeof buffer;
    const kern_return_t code = depot_get(depot, length, &data, &count);
    if (code != KERN_SUCCESS)
        return code;
    *right &= count == (mach_msg_type_number_t)length && (data == buffer) == (length <= INLINE);
    for (mach_msg_type_number_t i = 0; i < count; i++)
        *right &= data[i] == depot_byte((int)i);
    if (data != buffer)
        give_back(data, count);
    return KERN_SUCCESS;
}

/* What goes out of line takes its pages with it. What is short, or refused, stays. */
static kern_return_t reverse(mach_port_t depot, int length, bool *right) {
    char *const data = new_pages(length);
    char buffer[INLINE], *back = buffer;
    mach_msg_type_number_t count = sizeof buffer;
    kern_return_t code;
    for (int i = 0; i < length; i++)
        data[i] = (char)(i % 9);
    code = depot_reverse(depot, data, (mach_msg_type_number_t)length, &back, &count);
    if (code != KERN_SUCCESS || length <= INLINE)
        give_back(data, (size_t)length);
    if (code != KERN_SUCCESS)
        return code;
    *right &= count == (mach_msg_type_number_t)length;
    for (int i = 0; i < length; i++)
        *right &= back[length - 1 - i] == (char)(i % 9);
    if (back != buffer)
        give_back(back, count);
    return KERN_SUCCESS;
}

static void *ask(void *given) {
    struct client *const client = given;
    mach_port_t depot;
    require("get_bootstrap_port", task_get_bootstrap_port(mach_task_self(), &depot));
    for (int i = 0; i < LENGTHS; i++) {
        struct outcome *const outcome = &client->outcomes[i];
        outcome->right = true;
        outcome->put = put(depot, lengths[i], &outcome->right);
        outcome->get = get(depot, lengths[i], &outcome->right);
        outcome->reverse = reverse(depot, lengths[i], &outcome->right);
    }
    return NULL;
}

static void run_clients(mach_port_t depot) {
    struct client clients[CLIENTS];
    pthread_t threads[CLIENTS];
    for (int i = 0; i < CLIENTS; i++) {
        require("task_create", gelvonds_mach_task_create(&clients[i].task));
        require("set_bootstrap_port", task_set_bootstrap_port(clients[i].task, depot));
        require("thread_create", gelvonds_mach_thread_create(clients[i].task, ask, &clients[i], &threads[i]));
    }
    for (int i = 0; i < CLIENTS; i++)
        pthread_join(threads[i], NULL);
    for (int i = 0; i < LENGTHS; i++) {
        const struct outcome *const first = &clients[0].outcomes[i];
        for (int j = 0; j < CLIENTS; j++) {
            expect("put", clients[j].outcomes[i].put, first->put);
            expect("get", clients[j].outcomes[i].get, first->get);
            expect("reverse", clients[j].outcomes[i].reverse, first->reverse);
            must_be("what came back", clients[j].outcomes[i].right, true);
        }
        printf("%d bytes: put %s", lengths[i], mach_error_string(first->put));
        printf(", get %s", mach_error_string(first->get));
        printf(", reverse %s\n", mach_error_string(first->reverse));
    }
}

/* ---- rights ---- */

/* An array of rights for one port goes to the server, and comes back. The task's name of the port has their number. */
static void pass_rights(mach_port_t depot) {
    mach_port_t port, rights[RIGHTS], buffer[1];
    mach_port_array_t back = buffer;
    mach_msg_type_number_t count = 1;
    mach_port_urefs_t references;
    int number;
    require("allocate", mach_port_allocate(mach_task_self(), MACH_PORT_RIGHT_RECEIVE, &port));
    require("insert_right", mach_port_insert_right(mach_task_self(), port, port, MACH_MSG_TYPE_MAKE_SEND));
    for (int i = 0; i < RIGHTS; i++)
        rights[i] = port;
    require("depot_keep", depot_keep(depot, rights, RIGHTS, &number));
    must_be("the rights that were kept", number, RIGHTS);
    expect("depot_keep", depot_keep(depot, rights, RIGHTS, &number), KERN_INVALID_ARGUMENT);
    require("depot_return", depot_return(depot, &back, &count));
    must_be("the rights that came back", count, RIGHTS);
    must_be("their names", memcmp(back, rights, sizeof rights), 0);
    require("get_refs", mach_port_get_refs(mach_task_self(), port, MACH_PORT_RIGHT_SEND, &references));
    must_be("the references", references, 1 + RIGHTS);
    give_back(back, count * sizeof *back);
    require("destroy", mach_port_destroy(mach_task_self(), port));
    printf("%d rights went and came back\n", RIGHTS);
}

/* The first request is refused by its function. The second doesn't fit into the server's buffer, and is destroyed. */
static void be_refused(mach_port_t depot) {
    static char data[20000], label[4000];
    printf("refused: %s", mach_error_string(depot_refuse(depot, data, sizeof data, label, 100)));
    printf(", %s\n", mach_error_string(depot_refuse(depot, data, sizeof data, label, sizeof label)));
}

/* ---- main ---- */

struct service {
    mach_port_t port;
    mach_msg_return_t ended;
};

static void *serve(void *given) {
    struct service *const service = given;
    service->ended = depot_serve(service->port);
    return NULL;
}

int main(void) {
    task_t server;
    pthread_t serving;
    struct service service;
    mach_port_t depot;
    mach_msg_type_name_t kind;
    require("task_create", gelvonds_mach_task_create(&server));
    require("allocate", mach_port_allocate(server, MACH_PORT_RIGHT_RECEIVE, &service.port));
    require("extract_right", mach_port_extract_right(server, service.port, MACH_MSG_TYPE_MAKE_SEND, &depot, &kind));
    require("thread_create", gelvonds_mach_thread_create(server, serve, &service, &serving));
    run_clients(depot);
    pass_rights(depot);
    be_refused(depot);
    require("task_terminate", task_terminate(server));
    pthread_join(serving, NULL);
    printf("the server has answered %d requests, and its loop ended by %s\n", depot_answered,
           mach_error_string(service.ended));
    return 0;
}
