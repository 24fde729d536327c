/* A port enters two sets of a kernel of profile 3, and leaves them: by mach_port_extract_member, and as the set is
 * destroyed. It is received from by each of its sets, and by its own name once it is in none. Each call prints a line as
 * mach_run does. */
#include "gelvonds.h"
#include <inttypes.h>
#include <stdio.h>
#include <string.h>

enum { SIZE = 24 };

static void tell_code(gelvonds_code code) {
    printf("code %08" PRIx32 "\n", (uint32_t)code);
}

static gelvonds_name allocate(gelvonds *kernel, gelvonds_task task, uint32_t right) {
    gelvonds_name name = 0;
    const gelvonds_code code = gelvonds_port_allocate(kernel, task, right, &name);
    if (code != 0)
        tell_code(code);
    else
        printf("name %" PRIu32 "\n", name);
    return name;
}

/* Prints the port's status: the least name of its sets is the first number. */
static void tell_status(gelvonds *kernel, gelvonds_task task, gelvonds_name port) {
    gelvonds_status is;
    const gelvonds_code code = gelvonds_port_get_receive_status(kernel, task, port, &is);
    if (code != 0) {
        tell_code(code);
        return;
    }
    printf("status %" PRIu32 " %" PRIu32 " %" PRIu32 " %" PRIu32 " %" PRIu32 " %" PRIu32 " %" PRIu32 " %" PRIu32 " %" PRIu32 "\n",
           is.mps_pset, is.mps_seqno, is.mps_mscount, is.mps_qlimit, is.mps_msgcount, is.mps_sorights, is.mps_srights,
           is.mps_pdrequest, is.mps_nsrequest);
}

static void tell_members(gelvonds *kernel, gelvonds_task task, gelvonds_name set) {
    gelvonds_name members[4];
    size_t count = 0;
    const gelvonds_code code = gelvonds_port_get_set_status(kernel, task, set, members, 4, &count);
    if (code != 0) {
        tell_code(code);
        return;
    }
    printf("members");
    for (size_t i = 0; i < count; i++)
        printf(" %" PRIu32, members[i]);
    printf("\n");
}

/* Receives by the name, and prints the message's bytes. */
static void receive(gelvonds *kernel, gelvonds_task task, gelvonds_name name) {
    uint8_t bytes[SIZE];
    size_t length = 0;
    gelvonds_waited waited;
    const gelvonds_code code = gelvonds_receive(kernel, task, name, bytes, SIZE, false, &length, &waited);
    if (code != 0) {
        tell_code(code);
        return;
    }
    printf("message ");
    for (size_t i = 0; i < length; i++)
        printf("%02" PRIx8, bytes[i]);
    printf("\n");
}

/* Sends a message without a body by a send right that is made of the receive right under the name. */
static void send(gelvonds *kernel, gelvonds_task task, gelvonds_name port) {
    const uint32_t words[SIZE / 4] = { MACH_MSG_TYPE_MAKE_SEND, SIZE, port, 0, 0, 7 };
    uint8_t bytes[SIZE];
    for (size_t i = 0; i < SIZE; i++)
        bytes[i] = (uint8_t)(words[i / 4] >> 8 * (i % 4));
    tell_code(gelvonds_send(kernel, task, bytes, SIZE));
}

int main(void) {
    gelvonds kernel = GELVONDS_NONE;
    gelvonds_task task = 0;
    gelvonds_name port, set, other;

    tell_code(gelvonds_make_with_profile(&kernel, 3));
    tell_code(gelvonds_task_create(&kernel, &task));
    port = allocate(&kernel, task, MACH_PORT_RIGHT_RECEIVE);
    set = allocate(&kernel, task, MACH_PORT_RIGHT_PORT_SET);
    other = allocate(&kernel, task, MACH_PORT_RIGHT_PORT_SET);
    tell_code(gelvonds_port_insert_member(&kernel, task, port, set));
    tell_code(gelvonds_port_insert_member(&kernel, task, port, other));
    tell_code(gelvonds_port_insert_member(&kernel, task, port, other));
    tell_status(&kernel, task, port);
    send(&kernel, task, port);
    receive(&kernel, task, other);
    receive(&kernel, task, set);
    tell_code(gelvonds_port_extract_member(&kernel, task, port, set));
    tell_code(gelvonds_port_extract_member(&kernel, task, port, set));
    tell_members(&kernel, task, set);
    tell_status(&kernel, task, port);
    receive(&kernel, task, port);
    tell_code(gelvonds_port_destroy(&kernel, task, other));
    receive(&kernel, task, port);
    gelvonds_free(&kernel);
    return 0;
}
