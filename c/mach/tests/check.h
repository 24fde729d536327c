/* What the tests share: WANT compares a code and tells a difference; the program's status is `wrong`. */
#ifndef CHECK_H
#define CHECK_H

#include <mach/gelvonds.h>
#include <mach/mach.h>

#include <stdatomic.h>
#include <stdbool.h>
#include <stdint.h>
#include <stdio.h>
#include <stdlib.h>
#include <string.h>

static atomic_int wrong;

static inline void want_code(const char *file, int line, const char *what, kern_return_t code, kern_return_t wanted)
{
    if (code == wanted)
        return;
    atomic_store(&wrong, 1);
    fprintf(stderr, "%s:%d: %s: %s", file, line, what, mach_error_string(code));
    fprintf(stderr, ", not %s\n", mach_error_string(wanted));
}

static inline void want_number(const char *file, int line, const char *what, long number, long wanted)
{
    if (number == wanted)
        return;
    atomic_store(&wrong, 1);
    fprintf(stderr, "%s:%d: %s is %ld, not %ld\n", file, line, what, number, wanted);
}

#define WANT(call, wanted) want_code(__FILE__, __LINE__, #call, (call), (wanted))
#define MUST(call) WANT(call, KERN_SUCCESS)
#define IS(number, wanted) want_number(__FILE__, __LINE__, #number, (long)(number), (long)(wanted))

/* A message of one number, with a copied send right as its destination, and perhaps a right to reply once. */
typedef struct {
    mach_msg_header_t head;
    uint32_t number;
} number_message;

static inline mach_msg_return_t send_number(mach_port_t to, uint32_t number, mach_port_t replies,
                                            mach_msg_option_t option, mach_msg_timeout_t timeout)
{
    number_message message;
    const mach_msg_type_name_t local = replies == MACH_PORT_NULL ? 0 : MACH_MSG_TYPE_MAKE_SEND_ONCE;
    message.head.msgh_bits = MACH_MSGH_BITS(MACH_MSG_TYPE_COPY_SEND, local);
    message.head.msgh_size = sizeof message;
    message.head.msgh_remote_port = to;
    message.head.msgh_local_port = replies;
    message.head.msgh_seqno = 0;
    message.head.msgh_id = 1;
    message.number = number;
    return mach_msg(&message.head, MACH_SEND_MSG | option, sizeof message, 0, MACH_PORT_NULL, timeout, MACH_PORT_NULL);
}

static inline mach_msg_return_t receive_number(mach_port_name_t from, number_message *message,
                                               mach_msg_option_t option, mach_msg_timeout_t timeout)
{
    return mach_msg(&message->head, MACH_RCV_MSG | option, 0, sizeof *message, from, timeout, MACH_PORT_NULL);
}

/* A port of the thread's task, with its receive right and a send right under one name. */
static inline mach_port_t new_port(void)
{
    mach_port_t port = MACH_PORT_NULL;
    MUST(mach_port_allocate(mach_task_self(), MACH_PORT_RIGHT_RECEIVE, &port));
    MUST(mach_port_insert_right(mach_task_self(), port, port, MACH_MSG_TYPE_MAKE_SEND));
    return port;
}

static inline int ends(void)
{
    printf(atomic_load(&wrong) ? "wrong\n" : "right\n");
    return atomic_load(&wrong);
}

#endif
