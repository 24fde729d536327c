/* The messages of a name server, and its calls. Its port is the bootstrap port. */
#ifndef NAMES_H
#define NAMES_H

#include <mach/mach.h>

/* Tells the name server a port's name: the task has the receive right. */
kern_return_t names_check_in(mach_port_t names, const char *name, mach_port_t port);

/* Asks for a send right by its name, and waits until it was checked in. */
kern_return_t names_look_up(mach_port_t names, const char *name, mach_port_t *port);

/* What a server's loop calls: answers one request. */
boolean_t names_demux(mach_msg_header_t *request, mach_msg_header_t *reply);

#endif
