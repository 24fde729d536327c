/* The server of depot.defs, which depot.c runs in a task of its own. */
#ifndef DEPOT_SERVER_H
#define DEPOT_SERVER_H

#include <mach/mach.h>

/* Serves the port, by a thread of the task that has it, until a receive is refused. Returns the code of that receive. */
mach_msg_return_t depot_serve(mach_port_t service);

/* The byte at this place of the data that depot_get returns. */
char depot_byte(int at);

/* How many requests the server has answered, to be read once it has stopped. */
extern int depot_answered;

#endif
