/* mach_msg_destroy: gives up the rights of a message, and its memory. It is C above the kernel. */
#include "layer.h"

#include <string.h>

/* Does with a right what a message that is lost does with it. */
static void give_up(mach_port_t port, mach_msg_type_name_t type)
{
    const task_t self = mach_task_self();
    if (!MACH_PORT_VALID(port))
        return;
    switch (type) {
    case MACH_MSG_TYPE_MOVE_RECEIVE:
        mach_port_mod_refs(self, port, MACH_PORT_RIGHT_RECEIVE, -1);
        break;
    case MACH_MSG_TYPE_MOVE_SEND:
    case MACH_MSG_TYPE_MOVE_SEND_ONCE:
        mach_port_deallocate(self, port);
        break;
    case MACH_MSG_TYPE_MAKE_SEND:
        if (mach_port_insert_right(self, port, port, MACH_MSG_TYPE_MAKE_SEND) == KERN_SUCCESS)
            mach_port_deallocate(self, port);
        break;
    case MACH_MSG_TYPE_MAKE_SEND_ONCE:
        if (mach_port_extract_right(self, port, MACH_MSG_TYPE_MAKE_SEND_ONCE, &port, &type) == KERN_SUCCESS)
            mach_port_deallocate(self, port);
        break;
    default:
        break;
    }
}

static void give_up_item(const char *at, const gm_item *of)
{
    const char *const data = gm_item_data(at, of);
    if (MACH_MSG_TYPE_PORT_ANY(of->type))
        for (uint64_t i = 0; i < of->bytes / sizeof(mach_port_t); i++) {
            mach_port_t port;
            memcpy(&port, data + i * sizeof port, sizeof port);
            give_up(port, of->type);
        }
    gm_free_item(at, of);
}

void mach_msg_destroy(mach_msg_header_t *msg)
{
    const mach_msg_bits_t bits = msg->msgh_bits;
    const char *at = (const char *)(msg + 1);
    size_t left = msg->msgh_size < sizeof *msg ? 0 : msg->msgh_size - sizeof *msg;
    gm_item one;
    give_up(msg->msgh_remote_port, MACH_MSGH_BITS_REMOTE(bits));
    if ((bits & MACH_MSGH_BITS_COMPLEX) == 0)
        return;
    while (gm_read_item(at, left, &one) && (one.is_inline || gm_out_of_line)) {
        give_up_item(at, &one);
        at += one.whole;
        left -= one.whole;
    }
}
