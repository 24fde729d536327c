/* A name server, a service and a client, each a task: they find one another by the bootstrap port, which each task has
 * from its maker. */
#include "names.h"

#include <mach/gelvonds.h>
#include <stdio.h>
#include <stdlib.h>

typedef struct {
    mach_msg_header_t head;
    int number;
} number_message;

static mach_port_t names; /* in the first task, whose thread serves it */

static void must(const char *what, kern_return_t code)
{
    if (code == KERN_SUCCESS)
        return;
    printf("%s: %s\n", what, mach_error_string(code));
    exit(1);
}

static void *serve_names(void *unused)
{
    mach_msg_return_t code = mach_msg_server(names_demux, 256, names);
    (void)unused;
    /* The port died while this waited, or before it received again. */
    if (code == MACH_RCV_PORT_DIED || code == MACH_RCV_INVALID_NAME)
        printf("name server: its port is gone\n");
    else
        printf("name server: %s\n", mach_error_string(code));
    return NULL;
}

/* The service doubles numbers, until it is sent 0. */
static void *run_service(void *unused)
{
    mach_port_t bootstrap, service;
    number_message message;
    (void)unused;
    must("bootstrap", task_get_bootstrap_port(mach_task_self(), &bootstrap));
    must("allocate", mach_port_allocate(mach_task_self(), MACH_PORT_RIGHT_RECEIVE, &service));
    must("check in", names_check_in(bootstrap, "double", service));
    do {
        must("receive", mach_msg(&message.head, MACH_RCV_MSG, 0, sizeof message, service, 0, MACH_PORT_NULL));
        message.number *= 2;
        message.head.msgh_bits = MACH_MSGH_BITS(MACH_MSGH_BITS_REMOTE(message.head.msgh_bits), 0);
        message.head.msgh_local_port = MACH_PORT_NULL;
        must("reply", mach_msg(&message.head, MACH_SEND_MSG, sizeof message, 0, MACH_PORT_NULL, 0, MACH_PORT_NULL));
    } while (message.number != 0);
    return NULL;
}

static void *run_client(void *unused)
{
    mach_port_t bootstrap, service, replies = mach_reply_port();
    number_message message;
    (void)unused;
    must("bootstrap", task_get_bootstrap_port(mach_task_self(), &bootstrap));
    must("look up", names_look_up(bootstrap, "double", &service));
    for (int i = 3; i >= 0; i--) {
        message.head.msgh_bits = MACH_MSGH_BITS(MACH_MSG_TYPE_COPY_SEND, MACH_MSG_TYPE_MAKE_SEND_ONCE);
        message.head.msgh_remote_port = service;
        message.head.msgh_local_port = replies;
        message.head.msgh_id = 1;
        message.number = i;
        must("request", mach_msg(&message.head, MACH_SEND_MSG | MACH_RCV_MSG, sizeof message, sizeof message, replies,
                                 0, MACH_PORT_NULL));
        printf("%d doubled is %d\n", i, message.number);
    }
    return NULL;
}

int main(void)
{
    task_t service, client;
    pthread_t of_names, of_service, of_client;
    must("allocate", mach_port_allocate(mach_task_self(), MACH_PORT_RIGHT_RECEIVE, &names));
    must("insert", mach_port_insert_right(mach_task_self(), names, names, MACH_MSG_TYPE_MAKE_SEND));
    must("set bootstrap", task_set_bootstrap_port(mach_task_self(), names));
    must("task", gelvonds_mach_task_create(&service));
    must("task", gelvonds_mach_task_create(&client));
    must("thread", gelvonds_mach_thread_create(mach_task_self(), serve_names, NULL, &of_names));
    must("thread", gelvonds_mach_thread_create(client, run_client, NULL, &of_client));
    must("thread", gelvonds_mach_thread_create(service, run_service, NULL, &of_service));
    pthread_join(of_client, NULL);
    pthread_join(of_service, NULL);
    must("the end of the service", task_terminate(service));
    must("the end of the client", task_terminate(client));
    must("the end of the names", mach_port_mod_refs(mach_task_self(), names, MACH_PORT_RIGHT_RECEIVE, -1));
    pthread_join(of_names, NULL);
    return 0;
}
