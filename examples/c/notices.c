/* A client waits for an answer, and learns that its server has died: the calls of examples/server_dies.script,
 * made from C. Each call prints a line as mach_run does, so the output is that of the script. */
#include "gelvonds.h"

#include <inttypes.h>
#include <stdio.h>
#include <string.h>

enum { HEADER = 24, LENGTH = 28, NOTICE = 32 };

static void put_word(uint8_t *at, uint32_t word) {
    for (int i = 0; i < 4; i++)
        at[i] = (uint8_t)(word >> (8 * i));
}

static uint32_t word_at(const uint8_t *at) {
    return at[0] | (uint32_t)at[1] << 8 | (uint32_t)at[2] << 16 | (uint32_t)at[3] << 24;
}

/* Prints the code where it isn't 0, and says whether it is. */
static int done(gelvonds_code code) {
    if (code != 0)
        printf("code %08" PRIx32 "\n", (uint32_t)code);
    return code == 0;
}

static void tell_code(gelvonds_code code) {
    if (done(code))
        printf("code 00000000\n");
}

static void tell_type(gelvonds *kernel, gelvonds_task task, gelvonds_name name) {
    uint32_t type;
    if (done(gelvonds_port_type(kernel, task, name, &type)))
        printf("type %08" PRIx32 "\n", type);
}

static void tell_status(gelvonds *kernel, gelvonds_task task, gelvonds_name name) {
    gelvonds_status s;
    if (done(gelvonds_port_get_receive_status(kernel, task, name, &s)))
        printf("status %" PRIu32 " %" PRIu32 " %" PRIu32 " %" PRIu32 " %" PRIu32 " %" PRIu32 " %" PRIu32 " %" PRIu32
               " %" PRIu32 "\n", s.mps_pset, s.mps_seqno, s.mps_mscount, s.mps_qlimit, s.mps_msgcount, s.mps_sorights,
               s.mps_srights, s.mps_pdrequest, s.mps_nsrequest);
}

static gelvonds_task new_task(gelvonds *kernel) {
    gelvonds_task task = 0;
    if (done(gelvonds_task_create(kernel, &task)))
        printf("task %" PRIu32 "\n", task);
    return task;
}

static gelvonds_name new_port(gelvonds *kernel, gelvonds_task task) {
    gelvonds_name name = 0;
    if (done(gelvonds_port_allocate(kernel, task, MACH_PORT_RIGHT_RECEIVE, &name)))
        printf("name %" PRIu32 "\n", name);
    return name;
}

/* Asks for an answer, which is to come to a port of the client's own. */
static void ask(gelvonds *kernel, gelvonds_task client, gelvonds_name service, gelvonds_name answers, uint32_t id) {
    const uint32_t words[6] = { MACH_MSG_TYPE_COPY_SEND | MACH_MSG_TYPE_MAKE_SEND_ONCE << 8, LENGTH, service, answers,
                                0, id };
    uint8_t message[LENGTH];
    for (int i = 0; i < 6; i++)
        put_word(message + 4 * i, words[i]);
    memcpy(message + HEADER, "ping", 4);
    tell_code(gelvonds_send(kernel, client, message, LENGTH));
}

/* Prints what was received, or what was waited for. */
static int received(gelvonds_code code, const uint8_t *message, size_t length, const gelvonds_waited *waited) {
    if (code == MACH_RCV_TIMED_OUT)
        printf("empty %c %" PRIu64 "\n", waited->kind == GELVONDS_PORT ? 'p' : 's', waited->identity);
    if (code == MACH_RCV_TIMED_OUT || !done(code))
        return 0;
    printf("message ");
    for (size_t i = 0; i < length; i++)
        printf("%02x", message[i]);
    printf("\n");
    return 1;
}

/* The server takes the request, and ends before it has answered. */
static void die(gelvonds *kernel, gelvonds_task server, gelvonds_name service) {
    uint8_t message[LENGTH];
    size_t length = 0;
    gelvonds_waited waited;
    gelvonds_code code = gelvonds_receive(kernel, server, service, message, sizeof message, false, &length, &waited);
    if (received(code, message, length, &waited))
        tell_type(kernel, server, word_at(message + 8));
}

/* The client gives up a name whose port has died: the reference that it had, and the one that the notice brought. */
static void bury(gelvonds *kernel, gelvonds_task client, gelvonds_name dead, gelvonds_name answers) {
    uint32_t refs = 0;
    tell_type(kernel, client, dead);
    if (done(gelvonds_port_get_refs(kernel, client, dead, MACH_PORT_RIGHT_DEAD_NAME, &refs)))
        printf("refs %" PRIu32 "\n", refs);
    ask(kernel, client, dead, answers, 101);
    tell_code(gelvonds_port_mod_refs(kernel, client, dead, MACH_PORT_RIGHT_DEAD_NAME, -(int32_t)refs));
    tell_type(kernel, client, dead);
    tell_status(kernel, client, answers);
}

/* Waits for an answer while the server dies. */
static void wait_in_vain(gelvonds *kernel, gelvonds_task server, gelvonds_name service, gelvonds_task client,
                         gelvonds_name answers, gelvonds_name notices) {
    uint8_t message[NOTICE];
    size_t length = 0;
    gelvonds_waited waited = { 0, 0 };

    die(kernel, server, service);
    gelvonds_code code = gelvonds_receive(kernel, client, answers, message, sizeof message, false, &length, &waited);
    received(code, message, length, &waited);
    tell_code(gelvonds_task_terminate(kernel, server));

    /* The reply right went unused: send-once comes where the reply was to come. */
    code = gelvonds_receive_again(kernel, client, message, sizeof message, false, &length, &waited);
    received(code, message, length, &waited);
    /* And the port has died: dead-name comes to the port that asked for it, with the client's name in its body. */
    code = gelvonds_receive(kernel, client, notices, message, sizeof message, false, &length, &waited);
    if (received(code, message, length, &waited) && word_at(message + 20) == MACH_NOTIFY_DEAD_NAME)
        bury(kernel, client, word_at(message + HEADER + 4), answers);
}

int main(void) {
    gelvonds kernel = GELVONDS_NONE;
    const gelvonds_name asked = 1;
    gelvonds_name previous;

    if (gelvonds_make(&kernel) != KERN_SUCCESS) {
        fprintf(stderr, "no memory\n");
        return 1;
    }
    gelvonds_task server = new_task(&kernel), client = new_task(&kernel);
    gelvonds_name service = new_port(&kernel, server);
    tell_code(gelvonds_port_insert_right(&kernel, client, asked, server, service, MACH_MSG_TYPE_MAKE_SEND));
    gelvonds_name answers = new_port(&kernel, client), notices = new_port(&kernel, client);
    if (done(gelvonds_port_request_notification(&kernel, client, asked, MACH_NOTIFY_DEAD_NAME, 0, notices,
                                                MACH_MSG_TYPE_MAKE_SEND_ONCE, &previous)))
        printf("previous %" PRIu32 "\n", previous);
    tell_type(&kernel, client, asked);
    ask(&kernel, client, asked, answers, 100);
    wait_in_vain(&kernel, server, service, client, answers, notices);
    gelvonds_free(&kernel);
    return 0;
}
