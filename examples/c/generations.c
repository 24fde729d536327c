/* Fresh names with a generation: a kernel of profile 2, in which a name that was given up doesn't come back at once.
 * A profile that is none is refused, and a handle that holds a kernel keeps it. Each call prints a line as mach_run
 * does. */
#include "gelvonds.h"

#include <inttypes.h>
#include <stdio.h>

enum { LENGTH = 24 };

/* Prints the code where it isn't 0, and says whether it is. */
static int done(gelvonds_code code) {
    if (code != 0)
        printf("code %08" PRIx32 "\n", (uint32_t)code);
    return code == 0;
}

static void tell_code(gelvonds_code code) {
    if (done(code))
        printf("code 00000000\n");
}

static void make(gelvonds *kernel, uint32_t profile) {
    printf("profile %" PRIu32 ": ", profile);
    tell_code(gelvonds_make_with_profile(kernel, profile));
}

/* Makes a right under a fresh name. */
static gelvonds_name allocate(gelvonds *kernel, gelvonds_task task, uint32_t right) {
    gelvonds_name name = 0;
    if (done(gelvonds_port_allocate(kernel, task, right, &name)))
        printf("name %" PRIu32 "\n", name);
    return name;
}

/* Sends a message to the task's own port, by a send right that is made for it, and receives it. */
static void send_and_receive(gelvonds *kernel, gelvonds_task task, gelvonds_name port) {
    uint8_t message[LENGTH] = { MACH_MSG_TYPE_MAKE_SEND, 0, 0, 0, LENGTH, 0, 0, 0, (uint8_t)port, (uint8_t)(port >> 8),
                                0, 0, 0, 0, 0, 0, 0, 0, 0, 0, 7, 0, 0, 0 };
    size_t length = 0;
    gelvonds_waited waited;

    tell_code(gelvonds_send(kernel, task, message, LENGTH));
    if (!done(gelvonds_receive(kernel, task, port, message, LENGTH, 0, &length, &waited)))
        return;
    printf("message ");
    for (size_t i = 0; i < length; i++)
        printf("%02x", message[i]);
    printf("\n");
}

/* A dead name comes and goes. The name 700 is the caller's own: its index, 700 / 256, is 2, as that of 512 and 513. */
static void names_come_again(gelvonds *kernel, gelvonds_task task) {
    gelvonds_name first, second, chosen = 700;

    first = allocate(kernel, task, MACH_PORT_RIGHT_DEAD_NAME);
    tell_code(gelvonds_port_deallocate(kernel, task, first));
    second = allocate(kernel, task, MACH_PORT_RIGHT_DEAD_NAME);
    if (done(gelvonds_port_allocate_name(kernel, task, MACH_PORT_RIGHT_DEAD_NAME, chosen)))
        printf("name %" PRIu32 "\n", chosen);
    tell_code(gelvonds_port_deallocate(kernel, task, second));
    allocate(kernel, task, MACH_PORT_RIGHT_DEAD_NAME);
    tell_code(gelvonds_port_deallocate(kernel, task, chosen));
    allocate(kernel, task, MACH_PORT_RIGHT_DEAD_NAME);
}

int main(void) {
    gelvonds kernel = GELVONDS_NONE;
    gelvonds_task task = 0;
    gelvonds_name port;

    make(&kernel, 0);
    make(&kernel, 4);
    tell_code(gelvonds_task_create(&kernel, &task));
    make(&kernel, 2);
    if (done(gelvonds_task_create(&kernel, &task)))
        printf("task %" PRIu32 "\n", task);
    make(&kernel, 1);
    make(&kernel, 4);
    port = allocate(&kernel, task, MACH_PORT_RIGHT_RECEIVE);
    names_come_again(&kernel, task);
    send_and_receive(&kernel, task, port);
    gelvonds_free(&kernel);
    return 0;
}
