/* A client asks a server and gets one answer: the calls of examples/request_and_reply.script, made from C.
 * Each call prints a line as mach_run does, so the output is that of the script. */
#include "gelvonds.h"

#include <inttypes.h>
#include <stdio.h>
#include <string.h>

enum { HEADER = 24, LENGTH = 28 };

static void put_word(uint8_t *at, uint32_t word) {
    for (int i = 0; i < 4; i++)
        at[i] = (uint8_t)(word >> (8 * i));
}

static uint32_t word_at(const uint8_t *at) {
    return at[0] | (uint32_t)at[1] << 8 | (uint32_t)at[2] << 16 | (uint32_t)at[3] << 24;
}

/* A message of 28 bytes: a header of six words, and four letters. */
static void make_message(uint8_t *message, uint32_t bits, uint32_t remote, uint32_t local, uint32_t id, const char *body) {
    const uint32_t words[6] = { bits, LENGTH, remote, local, 0, id };
    for (int i = 0; i < 6; i++)
        put_word(message + 4 * i, words[i]);
    memcpy(message + HEADER, body, 4);
}

/* Prints the code where it isn't 0, and says whether it is. */
static int done(gelvonds_code code) {
    if (code != 0)
        printf("code %08" PRIx32 "\n", (uint32_t)code);
    return code == 0;
}

static void tell_code(gelvonds_code code) {
    if (done(code))
        printf("code 00000000\n");
}

static void tell_type(gelvonds *kernel, gelvonds_task task, gelvonds_name name) {
    uint32_t type;
    if (done(gelvonds_port_type(kernel, task, name, &type)))
        printf("type %08" PRIx32 "\n", type);
}

static void tell_status(gelvonds *kernel, gelvonds_task task, gelvonds_name name) {
    gelvonds_status s;
    if (done(gelvonds_port_get_receive_status(kernel, task, name, &s)))
        printf("status %" PRIu32 " %" PRIu32 " %" PRIu32 " %" PRIu32 " %" PRIu32 " %" PRIu32 " %" PRIu32 " %" PRIu32
               " %" PRIu32 "\n", s.mps_pset, s.mps_seqno, s.mps_mscount, s.mps_qlimit, s.mps_msgcount, s.mps_sorights,
               s.mps_srights, s.mps_pdrequest, s.mps_nsrequest);
}

static void receive(gelvonds *kernel, gelvonds_task task, gelvonds_name name, uint8_t *message) {
    size_t length = 0;
    gelvonds_waited waited;
    if (!done(gelvonds_receive(kernel, task, name, message, LENGTH, 0, &length, &waited)))
        return;
    printf("message ");
    for (size_t i = 0; i < length; i++)
        printf("%02x", message[i]);
    printf("\n");
}

/* The client asks by its name for the server's port; the answer is to come to its own port. */
static void exchange(gelvonds *kernel, gelvonds_task server, gelvonds_name service, gelvonds_task client) {
    uint8_t message[LENGTH] = { 0 };
    gelvonds_name asked = 1, answers = 0;
    uint32_t refs;

    tell_code(gelvonds_port_insert_right(kernel, client, asked, server, service, MACH_MSG_TYPE_MAKE_SEND));
    tell_type(kernel, client, asked);
    if (done(gelvonds_port_get_refs(kernel, client, asked, MACH_PORT_RIGHT_SEND, &refs)))
        printf("refs %" PRIu32 "\n", refs);
    if (done(gelvonds_port_allocate(kernel, client, MACH_PORT_RIGHT_RECEIVE, &answers)))
        printf("name %" PRIu32 "\n", answers);

    make_message(message, MACH_MSG_TYPE_COPY_SEND | MACH_MSG_TYPE_MAKE_SEND_ONCE << 8, asked, answers, 100, "ping");
    tell_code(gelvonds_send(kernel, client, message, LENGTH));
    tell_status(kernel, client, answers);

    /* The server: what it answers by is the remote port of what it received, of the kind in the lowest byte. */
    receive(kernel, server, service, message);
    gelvonds_name answer_by = word_at(message + 8);
    tell_type(kernel, server, answer_by);
    make_message(message, message[0], answer_by, 0, 200, "pong");
    tell_code(gelvonds_send(kernel, server, message, LENGTH));
    tell_type(kernel, server, answer_by);

    receive(kernel, client, answers, message);
    tell_status(kernel, client, answers);
}

int main(void) {
    gelvonds kernel = GELVONDS_NONE;
    gelvonds_task server = 0, client = 0;
    gelvonds_name service = 0;

    if (gelvonds_make(&kernel) != KERN_SUCCESS) {
        fprintf(stderr, "no memory\n");
        return 1;
    }
    if (done(gelvonds_task_create(&kernel, &server)))
        printf("task %" PRIu32 "\n", server);
    if (done(gelvonds_task_create(&kernel, &client)))
        printf("task %" PRIu32 "\n", client);
    if (done(gelvonds_port_allocate(&kernel, server, MACH_PORT_RIGHT_RECEIVE, &service)))
        printf("name %" PRIu32 "\n", service);
    exchange(&kernel, server, service, client);
    gelvonds_free(&kernel);
    return 0;
}
