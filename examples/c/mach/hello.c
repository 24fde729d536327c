/* A program that is written against mach/mach.h, and names nothing of this library: a thread sends, and main receives. */
#include <mach/mach.h>
#include <pthread.h>
#include <stdio.h>
#include <string.h>

typedef struct {
    mach_msg_header_t head;
    mach_msg_type_t type;
    char text[32];
} text_message;

/* Sends a text by the name of a send right, which the thread shares with main: both are of one task. */
static void *speak(void *port)
{
    text_message message;
    mach_msg_return_t code;
    memset(&message, 0, sizeof message);
    message.head.msgh_bits = MACH_MSGH_BITS(MACH_MSG_TYPE_COPY_SEND, 0);
    message.head.msgh_size = sizeof message;
    message.head.msgh_remote_port = *(mach_port_t *)port;
    message.head.msgh_id = 7;
    message.type.msgt_name = MACH_MSG_TYPE_STRING;
    message.type.msgt_size = 8;
    message.type.msgt_number = sizeof message.text;
    message.type.msgt_inline = TRUE;
    strcpy(message.text, "hello");
    code = mach_msg(&message.head, MACH_SEND_MSG, sizeof message, 0, MACH_PORT_NULL, MACH_MSG_TIMEOUT_NONE,
                    MACH_PORT_NULL);
    if (code != MACH_MSG_SUCCESS)
        printf("sent: %s\n", mach_error_string(code));
    return NULL;
}

int main(void)
{
    text_message message;
    mach_port_t port;
    pthread_t speaker;
    kern_return_t code = mach_port_allocate(mach_task_self(), MACH_PORT_RIGHT_RECEIVE, &port);
    if (code == KERN_SUCCESS)
        code = mach_port_insert_right(mach_task_self(), port, port, MACH_MSG_TYPE_MAKE_SEND);
    if (code != KERN_SUCCESS || pthread_create(&speaker, NULL, speak, &port) != 0) {
        printf("no port, or no thread: %s\n", mach_error_string(code));
        return 1;
    }
    code = mach_msg(&message.head, MACH_RCV_MSG, 0, sizeof message, port, MACH_MSG_TIMEOUT_NONE, MACH_PORT_NULL);
    if (code == MACH_MSG_SUCCESS)
        printf("received: id %d, %u bytes, \"%s\"\n", message.head.msgh_id, message.head.msgh_size, message.text);
    pthread_join(speaker, NULL);
    code = mach_msg(&message.head, MACH_RCV_MSG | MACH_RCV_TIMEOUT, 0, sizeof message, port, 10, MACH_PORT_NULL);
    printf("no other message in 10 ms: %s\n", mach_error_string(code));
    return 0;
}
