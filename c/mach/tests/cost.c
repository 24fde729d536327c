/* cost mach|gelvonds TIMES: sends a message and receives it so often, by mach_msg, or by gelvonds_send and
 * gelvonds_receive. What the one takes more than the other is the layer's. */
#include <mach/mach.h>

#include <gelvonds.h>

#include <stdlib.h>
#include <string.h>

static int by_mach_msg(long times)
{
    mach_msg_header_t message;
    mach_port_t port;
    mach_msg_return_t code = mach_port_allocate(mach_task_self(), MACH_PORT_RIGHT_RECEIVE, &port);
    memset(&message, 0, sizeof message);
    for (long i = 0; i < times && code == MACH_MSG_SUCCESS; i++) {
        message.msgh_bits = MACH_MSGH_BITS(MACH_MSG_TYPE_MAKE_SEND, 0);
        message.msgh_remote_port = port;
        message.msgh_local_port = MACH_PORT_NULL;
        code = mach_msg(&message, MACH_SEND_MSG, sizeof message, 0, MACH_PORT_NULL, 0, MACH_PORT_NULL);
        if (code == MACH_MSG_SUCCESS)
            code = mach_msg(&message, MACH_RCV_MSG, 0, sizeof message, port, 0, MACH_PORT_NULL);
    }
    return code;
}

static int by_gelvonds(long times)
{
    gelvonds kernel = GELVONDS_NONE;
    gelvonds_task task;
    mach_msg_header_t message;
    gelvonds_name port;
    gelvonds_code code = gelvonds_make(&kernel);
    memset(&message, 0, sizeof message);
    if (code == KERN_SUCCESS)
        code = gelvonds_task_create(&kernel, &task);
    if (code == KERN_SUCCESS)
        code = gelvonds_port_allocate(&kernel, task, MACH_PORT_RIGHT_RECEIVE, &port);
    for (long i = 0; i < times && code == KERN_SUCCESS; i++) {
        size_t length;
        gelvonds_waited waited;
        message.msgh_bits = MACH_MSGH_BITS(MACH_MSG_TYPE_MAKE_SEND, 0);
        message.msgh_remote_port = port;
        message.msgh_local_port = MACH_PORT_NULL;
        code = gelvonds_send(&kernel, task, (const uint8_t *)&message, sizeof message);
        if (code == KERN_SUCCESS)
            code = gelvonds_receive(&kernel, task, port, (uint8_t *)&message, sizeof message, false, &length, &waited);
    }
    gelvonds_free(&kernel);
    return code;
}

int main(int argc, char **argv)
{
    const long times = argc > 2 ? strtol(argv[2], NULL, 10) : 0;
    if (argc < 2)
        return 2;
    return (strcmp(argv[1], "mach") == 0 ? by_mach_msg(times) : by_gelvonds(times)) != 0;
}
