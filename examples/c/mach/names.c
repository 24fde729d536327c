/* A name server by hand-laid messages: both sides. (With MIG, all but the three routines comes from a .defs file.) */
#include "names.h"

#include <stddef.h>
#include <string.h>

enum { CHECK_IN = 500, LOOK_UP = 501, REPLIES = 100, NAME = 32, ENTRIES = 16 };

typedef struct {
    mach_msg_header_t head;
    mach_msg_type_t name_type;
    char name[NAME];
    mach_msg_type_t port_type; /* of a check-in alone */
    mach_port_t port;
} names_request;

typedef struct {
    mach_msg_header_t head;
    mach_msg_type_t code_type;
    kern_return_t code;
    mach_msg_type_t port_type; /* of a look-up that was done */
    mach_port_t port;
} names_reply;

static mach_msg_type_t type_of(unsigned name, unsigned bits, unsigned number)
{
    mach_msg_type_t type = { 0, 0, 0, 0, 0, 0, 0 };
    type.msgt_name = name & 0xff;
    type.msgt_size = bits & 0xff;
    type.msgt_number = number & 0xfff;
    type.msgt_inline = TRUE;
    return type;
}

/* ---- the client's side ---- */

/* Sends the request, with a right to reply once, and receives the reply into the same buffer. */
static kern_return_t ask(names_request *request, mach_msg_size_t size, mach_msg_size_t room)
{
    const mach_port_t replies = mig_get_reply_port();
    mach_msg_header_t *const head = &request->head;
    kern_return_t code;
    head->msgh_bits |= MACH_MSGH_BITS(MACH_MSG_TYPE_COPY_SEND, MACH_MSG_TYPE_MAKE_SEND_ONCE);
    head->msgh_size = size;
    head->msgh_local_port = replies;
    code = mach_msg(head, MACH_SEND_MSG | MACH_RCV_MSG, size, room, replies, MACH_MSG_TIMEOUT_NONE, MACH_PORT_NULL);
    if (code != MACH_MSG_SUCCESS)
        return code;
    return head->msgh_id == MACH_NOTIFY_SEND_ONCE ? MIG_SERVER_DIED : KERN_SUCCESS;
}

kern_return_t names_check_in(mach_port_t names, const char *name, mach_port_t port)
{
    union {
        names_request request;
        names_reply reply;
    } message;
    kern_return_t code;
    memset(&message, 0, sizeof message);
    message.request.head.msgh_bits = MACH_MSGH_BITS_COMPLEX;
    message.request.head.msgh_remote_port = names;
    message.request.head.msgh_id = CHECK_IN;
    message.request.name_type = type_of(MACH_MSG_TYPE_STRING, 8, NAME);
    mig_strncpy(message.request.name, name, NAME);
    message.request.port_type = type_of(MACH_MSG_TYPE_MAKE_SEND, 32, 1);
    message.request.port = port;
    code = ask(&message.request, sizeof message.request, sizeof message);
    return code == KERN_SUCCESS ? message.reply.code : code;
}

kern_return_t names_look_up(mach_port_t names, const char *name, mach_port_t *port)
{
    union {
        names_request request;
        names_reply reply;
    } message;
    kern_return_t code;
    memset(&message, 0, sizeof message);
    message.request.head.msgh_remote_port = names;
    message.request.head.msgh_id = LOOK_UP;
    message.request.name_type = type_of(MACH_MSG_TYPE_STRING, 8, NAME);
    mig_strncpy(message.request.name, name, NAME);
    code = ask(&message.request, offsetof(names_request, port_type), sizeof message);
    if (code == KERN_SUCCESS)
        code = message.reply.code;
    if (code == KERN_SUCCESS)
        *port = message.reply.port;
    return code;
}

/* ---- the server's side: by one thread ---- */

/* A name; its port, or 0 where it was only asked for; and who waits for it. */
static struct {
    char name[NAME];
    mach_port_t port;
    mach_msg_header_t waits;
} entries[ENTRIES];

static void lay_reply(names_reply *reply, const mach_msg_header_t *to, kern_return_t code, mach_port_t port)
{
    memset(reply, 0, sizeof *reply);
    reply->head.msgh_bits = MACH_MSGH_BITS(MACH_MSGH_BITS_REMOTE(to->msgh_bits), 0);
    reply->head.msgh_size = offsetof(names_reply, port_type);
    reply->head.msgh_remote_port = to->msgh_remote_port;
    reply->head.msgh_id = to->msgh_id + REPLIES;
    reply->code_type = type_of(MACH_MSG_TYPE_INTEGER_32, 32, 1);
    reply->code = code;
    if (port == MACH_PORT_NULL)
        return;
    reply->head.msgh_bits |= MACH_MSGH_BITS_COMPLEX;
    reply->head.msgh_size = sizeof *reply;
    reply->port_type = type_of(MACH_MSG_TYPE_COPY_SEND, 32, 1);
    reply->port = port;
}

/* The place of the name, or a free one; -1 where there is none. */
static int place_of(const char *name)
{
    int i;
    for (i = 0; i < ENTRIES && entries[i].name[0] != 0; i++)
        if (strncmp(entries[i].name, name, NAME) == 0)
            return i;
    if (i == ENTRIES)
        return -1;
    mig_strncpy(entries[i].name, name, NAME);
    return i;
}

static void check_in(const names_request *request, names_reply *reply)
{
    const int i = place_of(request->name);
    names_reply late;
    if (i < 0 || entries[i].port != MACH_PORT_NULL) {
        lay_reply(reply, &request->head, i < 0 ? KERN_NO_SPACE : KERN_NAME_EXISTS, MACH_PORT_NULL);
        return; /* the loop gives up the right that came */
    }
    entries[i].port = request->port;
    if (MACH_PORT_VALID(entries[i].waits.msgh_remote_port)) {
        lay_reply(&late, &entries[i].waits, KERN_SUCCESS, request->port);
        if (mach_msg(&late.head, MACH_SEND_MSG, late.head.msgh_size, 0, MACH_PORT_NULL, 0, MACH_PORT_NULL)
            != MACH_MSG_SUCCESS)
            mach_msg_destroy(&late.head);
        entries[i].waits.msgh_remote_port = MACH_PORT_NULL;
    }
    lay_reply(reply, &request->head, KERN_SUCCESS, MACH_PORT_NULL);
}

static void look_up(const names_request *request, names_reply *reply)
{
    const int i = place_of(request->name);
    if (i >= 0 && entries[i].port != MACH_PORT_NULL) {
        lay_reply(reply, &request->head, KERN_SUCCESS, entries[i].port);
    } else if (i < 0 || MACH_PORT_VALID(entries[i].waits.msgh_remote_port)) {
        lay_reply(reply, &request->head, KERN_RESOURCE_SHORTAGE, MACH_PORT_NULL);
    } else {
        entries[i].waits = request->head; /* whoever checks it in makes the reply */
        lay_reply(reply, &request->head, MIG_NO_REPLY, MACH_PORT_NULL);
    }
}

boolean_t names_demux(mach_msg_header_t *request, mach_msg_header_t *reply)
{
    const names_request *const in = (const names_request *)request;
    names_reply *const out = (names_reply *)reply;
    if (request->msgh_id == CHECK_IN && request->msgh_size == sizeof *in)
        check_in(in, out);
    else if (request->msgh_id == LOOK_UP && request->msgh_size == offsetof(names_request, port_type))
        look_up(in, out);
    else
        lay_reply(out, request, MIG_BAD_ID, MACH_PORT_NULL);
    return out->code != MIG_BAD_ID;
}
