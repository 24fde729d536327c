/* A server and a client, over stubs that MIG made of first.defs: the program of docs/MACH.md. */
#include "first.h"   /* the client's stubs */
#include "first_S.h" /* the functions that the server has to have */

#include <mach/mach.h>
#include <pthread.h>
#include <stdio.h>

/* MIG's: unpacks a request, calls its function, and packs the reply. */
extern boolean_t first_server(mach_msg_header_t *request, mach_msg_header_t *reply);

kern_return_t do_first_add(mach_port_t server, int a, int b, int *sum) {
    (void)server;
    *sum = a + b;
    return KERN_SUCCESS;
}

static void *serve(void *port) {
    mach_msg_server(first_server, 256, *(mach_port_t *)port); /* 3 */
    return NULL;
}

static kern_return_t ask(mach_port_t service) {
    int sum;
    kern_return_t code = first_add(service, 2, 3, &sum); /* 4 */
    if (code == KERN_SUCCESS)
        printf("2 and 3 are %d\n", sum);
    return code;
}

int main(void) {
    mach_port_t service;
    pthread_t server;
    kern_return_t code = mach_port_allocate(mach_task_self(), MACH_PORT_RIGHT_RECEIVE, &service); /* 1 */
    if (code == KERN_SUCCESS)
        code = mach_port_insert_right(mach_task_self(), service, service, MACH_MSG_TYPE_MAKE_SEND); /* 2 */
    if (code != KERN_SUCCESS || pthread_create(&server, NULL, serve, &service) != 0) {
        printf("no server: %s\n", mach_error_string(code));
        return 1;
    }
    code = ask(service);
    if (code != KERN_SUCCESS)
        printf("no answer: %s\n", mach_error_string(code));
    mach_port_mod_refs(mach_task_self(), service, MACH_PORT_RIGHT_RECEIVE, -1); /* 5 */
    pthread_join(server, NULL);
    return code != KERN_SUCCESS;
}
