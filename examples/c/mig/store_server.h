/* The server of store.defs, which store.c runs in a task of its own. */
#ifndef STORE_SERVER_H
#define STORE_SERVER_H

#include <mach/mach.h>

/* Makes the server's ports in this task. `service` is the task's name of the port to ask. */
void store_prepare(task_t task, mach_port_t *service);

/* Serves, by a thread of that task, until a receive is refused, and returns the code of that receive. */
mach_msg_return_t store_serve(void);

/* What the server has done, to be read once it has stopped. */
struct store_account {
    int adopted;       /* receive rights that it got */
    int exchanged;     /* rights that it got, by whichever disposition */
    int watchers_gone; /* dead-name notices */
    int closed;        /* entries that nobody could ask any more, by no-senders notices */
};
extern struct store_account store_account;

#endif
