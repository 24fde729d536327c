/* A server and a client, and a message between them: the program of docs/EMBEDDING.md. */
#include "gelvonds.h"

#include <stdio.h>

static const uint8_t message[24] = { MACH_MSG_TYPE_COPY_SEND, 0, 0, 0, /* 3 */
                                     24, 0, 0, 0, 1, 0, 0, 0, 0, 0, 0, 0, 0, 0, 0, 0, 7, 0, 0, 0 };

static gelvonds_code exchange(gelvonds *kernel, uint8_t *room, size_t *length) {
    gelvonds_task server, client;
    gelvonds_name service;
    gelvonds_waited waited;
    gelvonds_code code;
    if ((code = gelvonds_task_create(kernel, &server)) != 0) /* 2 */
        return code;
    if ((code = gelvonds_task_create(kernel, &client)) != 0)
        return code;
    if ((code = gelvonds_port_allocate(kernel, server, MACH_PORT_RIGHT_RECEIVE, &service)) != 0)
        return code;
    if ((code = gelvonds_port_insert_right(kernel, client, 1, server, service, MACH_MSG_TYPE_MAKE_SEND)) != 0)
        return code;
    if ((code = gelvonds_send(kernel, client, message, sizeof message)) != 0) /* 4 */
        return code;
    return gelvonds_receive(kernel, server, service, room, 24, 0, length, &waited);
}

int main(void) {
    gelvonds kernel = GELVONDS_NONE; /* 1 */
    uint8_t room[24];
    size_t length;
    gelvonds_code code = gelvonds_make(&kernel);
    if (code == 0)
        code = exchange(&kernel, room, &length);
    if (code == 0)
        printf("%zu bytes, id %d\n", length, room[20]); /* 5 */
    else if (code == MACH_RCV_TIMED_OUT)
        printf("no message\n");
    else
        printf("code %08x\n", (unsigned)code);
    gelvonds_free(&kernel); /* 6 */
    return 0;
}
