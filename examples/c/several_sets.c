/* A port in several sets: a kernel of profile 3, in which urgent requests are received first. The port of urgent requests
 * is in a set of its own and in the set of all. Each call prints a line as mach_run does. */
#include "gelvonds.h"
#include <inttypes.h>
#include <stdio.h>
#include <string.h>

enum { SIZE = 24 };

static void tell_code(gelvonds_code code) {
    printf("code %08" PRIx32 "\n", (uint32_t)code);
}

static gelvonds_name allocate(gelvonds *kernel, gelvonds_task task, uint32_t right) {
    gelvonds_name name = 0;
    const gelvonds_code code = gelvonds_port_allocate(kernel, task, right, &name);
    if (code != 0)
        tell_code(code);
    else
        printf("name %" PRIu32 "\n", name);
    return name;
}

/* Sends a message without a body by a send right that is made of the receive right under the name. */
static void request(gelvonds *kernel, gelvonds_task task, gelvonds_name port, uint32_t id) {
    const uint32_t words[SIZE / 4] = { MACH_MSG_TYPE_MAKE_SEND, SIZE, port, 0, 0, id };
    uint8_t bytes[SIZE];
    for (size_t i = 0; i < SIZE; i++)
        bytes[i] = (uint8_t)(words[i / 4] >> 8 * (i % 4));
    tell_code(gelvonds_send(kernel, task, bytes, SIZE));
}

/* Receives by the set, and tells the id. */
static void serve(gelvonds *kernel, gelvonds_task task, gelvonds_name set) {
    uint8_t bytes[SIZE];
    size_t length = 0;
    gelvonds_waited waited;
    const gelvonds_code code = gelvonds_receive(kernel, task, set, bytes, SIZE, false, &length, &waited);
    if (code != 0)
        tell_code(code);
    else
        printf("id %" PRIu8 "\n", bytes[20]);
}

int main(void) {
    gelvonds kernel = GELVONDS_NONE;
    gelvonds_task task = 0;
    gelvonds_name urgent, usual, set, all;

    tell_code(gelvonds_make_with_profile(&kernel, 3));
    tell_code(gelvonds_task_create(&kernel, &task));
    urgent = allocate(&kernel, task, MACH_PORT_RIGHT_RECEIVE);
    usual = allocate(&kernel, task, MACH_PORT_RIGHT_RECEIVE);
    set = allocate(&kernel, task, MACH_PORT_RIGHT_PORT_SET);
    all = allocate(&kernel, task, MACH_PORT_RIGHT_PORT_SET);
    tell_code(gelvonds_port_insert_member(&kernel, task, urgent, set));
    tell_code(gelvonds_port_insert_member(&kernel, task, urgent, all));
    tell_code(gelvonds_port_insert_member(&kernel, task, usual, all));
    tell_code(gelvonds_port_insert_member(&kernel, task, usual, all));
    request(&kernel, task, usual, 10);
    request(&kernel, task, urgent, 90);
    serve(&kernel, task, set);
    serve(&kernel, task, set);
    request(&kernel, task, urgent, 91);
    serve(&kernel, task, all);
    serve(&kernel, task, all);
    tell_code(gelvonds_port_extract_member(&kernel, task, urgent, set));
    tell_code(gelvonds_port_extract_member(&kernel, task, urgent, set));
    gelvonds_free(&kernel);
    return 0;
}
