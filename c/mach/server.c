/* mach_msg_server: the loop of a server. It is C above the kernel. */
#include "layer.h"

#include <stdlib.h>

typedef boolean_t demux_t(mach_msg_header_t *request, mach_msg_header_t *reply);

typedef struct buffers {
    mig_reply_header_t *request, *reply;
    mach_msg_return_t code; /* that the loop ended with */
} buffers;

static void free_buffers(void *given)
{
    buffers *const both = given;
    free(both->request);
    free(both->reply);
}

/* Lets demux answer the request, and says whether there is a reply to send. */
static bool answer(demux_t *demux, const buffers *both)
{
    mig_reply_header_t *const request = both->request, *const reply = both->reply;
    demux(&request->Head, &reply->Head);
    if (reply->RetCode == MIG_NO_REPLY) {
        reply->Head.msgh_remote_port = MACH_PORT_NULL;
    } else if (reply->RetCode != KERN_SUCCESS) {
        request->Head.msgh_remote_port = MACH_PORT_NULL; /* the reply has this right */
        mach_msg_destroy(&request->Head);
    }
    if (MACH_PORT_VALID(reply->Head.msgh_remote_port))
        return true;
    if ((reply->Head.msgh_bits & MACH_MSGH_BITS_COMPLEX) != 0)
        mach_msg_destroy(&reply->Head);
    return false;
}

/* Makes a reply that is too long into one that says so, and gives up what it has but for the reply right. */
static void shorten(mig_reply_header_t *reply)
{
    const mach_port_t client = reply->Head.msgh_remote_port;
    reply->Head.msgh_remote_port = MACH_PORT_NULL;
    mach_msg_destroy(&reply->Head);
    reply->Head.msgh_remote_port = client;
    reply->Head.msgh_bits = MACH_MSGH_BITS(MACH_MSGH_BITS_REMOTE(reply->Head.msgh_bits), 0);
    reply->Head.msgh_size = sizeof *reply;
    reply->RetCode = MIG_ARRAY_TOO_LARGE;
}

/* Sends the reply. By a send-once right there is always room; by another the server doesn't wait for a client. A reply
 * that can't be sent is given up. */
static void send_reply(mig_reply_header_t *reply)
{
    mach_msg_header_t *const head = &reply->Head;
    const bool once = MACH_MSGH_BITS_REMOTE(head->msgh_bits) == MACH_MSG_TYPE_MOVE_SEND_ONCE;
    const mach_msg_option_t option = once ? MACH_SEND_MSG : MACH_SEND_MSG | MACH_SEND_TIMEOUT;
    mach_msg_return_t code = mach_msg(head, option, head->msgh_size, 0, MACH_PORT_NULL, 0, MACH_PORT_NULL);
    if (code == MACH_SEND_INVALID_DATA && gm_out_of_line) {
        shorten(reply);
        code = mach_msg(head, option, head->msgh_size, 0, MACH_PORT_NULL, 0, MACH_PORT_NULL);
    }
    if (code != MACH_MSG_SUCCESS)
        mach_msg_destroy(head);
}

static mach_msg_return_t serve(demux_t *demux, const buffers *both, mach_msg_size_t max_size, mach_port_t rcv_name,
                               mach_msg_option_t option, mach_msg_timeout_t timeout)
{
    for (;;) {
        const mach_msg_return_t code =
            mach_msg(&both->request->Head, MACH_RCV_MSG | option, 0, max_size, rcv_name, timeout, MACH_PORT_NULL);
        if (code == MACH_RCV_TOO_LARGE && (option & MACH_RCV_LARGE) == 0)
            continue; /* the request is destroyed */
        if (code != MACH_MSG_SUCCESS)
            return code;
        if (answer(demux, both))
            send_reply(both->reply);
    }
}

mach_msg_return_t mach_msg_server_timeout(demux_t *demux, mach_msg_size_t max_size, mach_port_t rcv_name,
                                          mach_msg_option_t option, mach_msg_timeout_t timeout)
{
    const size_t size = max_size < sizeof(mig_reply_header_t) ? sizeof(mig_reply_header_t) : max_size;
    /* MIG's demux writes a reply without a look at the size: so there is room for the longest that can be sent */
    buffers both = { malloc(size), malloc(size < GM_LONGEST ? GM_LONGEST : size), KERN_RESOURCE_SHORTAGE };
    pthread_cleanup_push(free_buffers, &both);
    if (both.request != NULL && both.reply != NULL)
        both.code = serve(demux, &both, max_size, rcv_name, option & (MACH_RCV_TIMEOUT | MACH_RCV_LARGE), timeout);
    pthread_cleanup_pop(1);
    return both.code;
}

mach_msg_return_t mach_msg_server(demux_t *demux, mach_msg_size_t max_size, mach_port_t rcv_name)
{
    return mach_msg_server_timeout(demux, max_size, rcv_name, MACH_MSG_OPTION_NONE, MACH_MSG_TIMEOUT_NONE);
}
