/* What each call may have changed for a thread that waits: a line has the call, and the ports and sets that
 * gelvonds_touched tells after it, by identity. */
#include "gelvonds.h"

#include <inttypes.h>
#include <stdio.h>
#include <string.h>

enum { HEADER = 24, WITH_RIGHT = 32, ROOM = 64 };

/* Names that the tasks choose: of the server ports and sets, of the client a send right for the first port. */
enum { PORT = 10, NOTICES = 11, WATCHED = 12, SET = 20, OTHER_SET = 21, SERVICE = 30, SPARE = 40, FIRST_MEMBER = 100 };

static gelvonds kernel = GELVONDS_NONE;
static gelvonds_task server, client;

static void put_word(uint8_t *at, uint32_t word) {
    for (int i = 0; i < 4; i++)
        at[i] = (uint8_t)(word >> (8 * i));
}

/* The line of a call: how it ended where it was refused, and what it touched. */
static void tell(const char *call, gelvonds_code code) {
    gelvonds_touched_places touched;
    char name[GELVONDS_TEXT_ROOM];
    printf("%s:", call);
    if (code != KERN_SUCCESS && gelvonds_code_name(code, name, sizeof name) != 0)
        printf(" %s,", name);
    if (gelvonds_touched(&kernel, &touched) != KERN_SUCCESS)
        printf(" not told");
    else if (touched.all)
        printf(" any");
    for (int i = 0; i < 4; i++)
        if (!touched.all && touched.on[i].kind != 0)
            printf(" %s %" PRIu64, touched.on[i].kind == GELVONDS_PORT ? "port" : "set", touched.on[i].identity);
    printf("\n");
}

/* A message of raw bytes, or one whose body is the right under the name by this disposition. */
static gelvonds_code send(gelvonds_task task, gelvonds_name to, uint32_t by, gelvonds_name right, uint32_t disposition) {
    uint8_t bytes[WITH_RIGHT];
    memset(bytes, 0, sizeof bytes);
    put_word(bytes, MACH_MSGH_BITS(by, 0) | (right != 0 ? MACH_MSGH_BITS_COMPLEX : 0));
    put_word(bytes + 8, to);
    put_word(bytes + 24, disposition | 32u << 8 | 1u << 16 | 1u << 28);
    put_word(bytes + 28, right);
    return gelvonds_send(&kernel, task, bytes, right != 0 ? WITH_RIGHT : HEADER);
}

static gelvonds_code receive(gelvonds_task task, gelvonds_name name, size_t room, bool large) {
    uint8_t bytes[ROOM];
    size_t length;
    gelvonds_waited waited;
    return gelvonds_receive(&kernel, task, name, bytes, room, large, &length, &waited);
}

/* Tasks, names, ports and sets are made, and asked about. */
static void make(void) {
    gelvonds_name names[3];
    gelvonds_status status;
    uint32_t number, types[3];
    size_t count;
    tell("task_create", gelvonds_task_create(&kernel, &server));
    gelvonds_task_create(&kernel, &client);
    tell("allocate_name of a port", gelvonds_port_allocate_name(&kernel, server, MACH_PORT_RIGHT_RECEIVE, PORT));
    tell("allocate_name of a set", gelvonds_port_allocate_name(&kernel, server, MACH_PORT_RIGHT_PORT_SET, SET));
    gelvonds_port_allocate_name(&kernel, server, MACH_PORT_RIGHT_PORT_SET, OTHER_SET);
    tell("allocate_name of a dead name", gelvonds_port_allocate_name(&kernel, client, MACH_PORT_RIGHT_DEAD_NAME, PORT));
    tell("get_refs", gelvonds_port_get_refs(&kernel, server, PORT, MACH_PORT_RIGHT_RECEIVE, &number));
    tell("type", gelvonds_port_type(&kernel, server, PORT, &number));
    tell("names", gelvonds_port_names(&kernel, server, names, 3, types, 3, &count));
    tell("get_receive_status", gelvonds_port_get_receive_status(&kernel, server, PORT, &status));
    tell("get_set_status", gelvonds_port_get_set_status(&kernel, server, SET, names, 3, &count));
    tell("rename", gelvonds_port_rename(&kernel, server, PORT, SPARE));
    gelvonds_port_rename(&kernel, server, SPARE, PORT);
    tell("set_qlimit", gelvonds_port_set_qlimit(&kernel, server, PORT, 3));
    tell("set_mscount", gelvonds_port_set_mscount(&kernel, server, PORT, 0));
    tell("set_seqno", gelvonds_port_set_seqno(&kernel, server, PORT, 0));
    tell("a name that isn't there", gelvonds_port_type(&kernel, server, SPARE, &number));
}

/* A port goes into a set, into another, and out of it. */
static void move(void) {
    tell("move_member into a set", gelvonds_port_move_member(&kernel, server, PORT, SET));
    tell("move_member into another set", gelvonds_port_move_member(&kernel, server, PORT, OTHER_SET));
    tell("a message to a port in a set", send(server, PORT, MACH_MSG_TYPE_MAKE_SEND, 0, 0));
    tell("it is received by the set", receive(server, OTHER_SET, ROOM, false));
    tell("move_member out of all sets", gelvonds_port_move_member(&kernel, server, PORT, MACH_PORT_NULL));
}

/* Messages to a port that is in no set. */
static void talk(void) {
    tell("a message", send(server, PORT, MACH_MSG_TYPE_MAKE_SEND, 0, 0));
    tell("too long, and it stays", receive(server, PORT, 0, true));
    tell("it is received", receive(server, PORT, ROOM, false));
    tell("there is none", receive(server, PORT, ROOM, false));
    send(server, PORT, MACH_MSG_TYPE_MAKE_SEND, 0, 0);
    tell("too long, and it is destroyed", receive(server, PORT, 0, false));
    tell("a message with a send right", send(server, PORT, MACH_MSG_TYPE_MAKE_SEND, PORT, MACH_MSG_TYPE_MAKE_SEND));
    tell("too long with a send right, and it is destroyed", receive(server, PORT, 0, false));
}

/* Rights are handed to another task and back, and references go. */
static void hand(void) {
    gelvonds_name poly;
    uint32_t kind;
    tell("insert_right of a send right",
         gelvonds_port_insert_right(&kernel, client, SERVICE, server, PORT, MACH_MSG_TYPE_MAKE_SEND));
    tell("mod_refs by 2", gelvonds_port_mod_refs(&kernel, client, SERVICE, MACH_PORT_RIGHT_SEND, 2));
    tell("deallocate", gelvonds_port_deallocate(&kernel, client, SERVICE));
    tell("extract_right of a send right",
         gelvonds_port_extract_right(&kernel, client, SERVICE, MACH_MSG_TYPE_COPY_SEND, server, &poly, &kind));
    tell("destroy of send rights", gelvonds_port_destroy(&kernel, client, SERVICE));
    gelvonds_port_move_member(&kernel, server, PORT, SET);
    tell("insert_right of a receive right in a set",
         gelvonds_port_insert_right(&kernel, client, SERVICE, server, PORT, MACH_MSG_TYPE_MOVE_RECEIVE));
    tell("extract_right of a receive right",
         gelvonds_port_extract_right(&kernel, client, SERVICE, MACH_MSG_TYPE_MOVE_RECEIVE, server, &poly, &kind));
}

/* Notices of one port are asked for, which come to another. */
static void ask(void) {
    gelvonds_name previous;
    gelvonds_port_allocate_name(&kernel, server, MACH_PORT_RIGHT_RECEIVE, NOTICES);
    gelvonds_port_allocate_name(&kernel, server, MACH_PORT_RIGHT_RECEIVE, WATCHED);
    tell("request_notification that is told later",
         gelvonds_port_request_notification(&kernel, server, WATCHED, MACH_NOTIFY_DEAD_NAME, 0, NOTICES,
                                            MACH_MSG_TYPE_MAKE_SEND_ONCE, &previous));
    tell("request_notification that is told at once",
         gelvonds_port_request_notification(&kernel, server, WATCHED, MACH_NOTIFY_NO_SENDERS, 0, NOTICES,
                                            MACH_MSG_TYPE_MAKE_SEND_ONCE, &previous));
    tell("a request is taken away",
         gelvonds_port_request_notification(&kernel, server, WATCHED, MACH_NOTIFY_DEAD_NAME, 0, MACH_PORT_NULL,
                                            MACH_MSG_TYPE_MAKE_SEND_ONCE, &previous));
}

/* A port of the server's, made under its old name, which dies. */
static gelvonds_code make_and_destroy(gelvonds_name set) {
    gelvonds_port_allocate_name(&kernel, server, MACH_PORT_RIGHT_RECEIVE, PORT);
    gelvonds_port_move_member(&kernel, server, PORT, set);
    return gelvonds_port_destroy(&kernel, server, PORT);
}

/* Send-once rights that are lost, whose port gets a notice each. */
static void lose(void) {
    gelvonds_port_insert_right(&kernel, client, SERVICE, server, PORT, MACH_MSG_TYPE_MAKE_SEND_ONCE);
    tell("deallocate of a send-once right", gelvonds_port_deallocate(&kernel, client, SERVICE));
    gelvonds_port_insert_right(&kernel, client, SERVICE, server, PORT, MACH_MSG_TYPE_MAKE_SEND_ONCE);
    tell("destroy of a send-once right", gelvonds_port_destroy(&kernel, client, SERVICE));
    gelvonds_port_insert_right(&kernel, client, SERVICE, server, PORT, MACH_MSG_TYPE_MAKE_SEND_ONCE);
    tell("mod_refs of a send-once right",
         gelvonds_port_mod_refs(&kernel, client, SERVICE, MACH_PORT_RIGHT_SEND_ONCE, -1));
}

/* Ports that die: one with messages, others alone, and one of which a notice tells. */
static void die(void) {
    gelvonds_name previous;
    gelvonds_port_insert_right(&kernel, client, SERVICE, server, PORT, MACH_MSG_TYPE_MAKE_SEND);
    tell("destroy of a receive right, with messages", gelvonds_port_destroy(&kernel, server, PORT));
    tell("deallocate of a dead name", gelvonds_port_deallocate(&kernel, client, SERVICE));
    tell("destroy of a receive right, with nothing else", make_and_destroy(MACH_PORT_NULL));
    tell("destroy of a receive right in a set", make_and_destroy(SET));
    gelvonds_port_allocate_name(&kernel, server, MACH_PORT_RIGHT_RECEIVE, PORT);
    gelvonds_port_insert_right(&kernel, client, SERVICE, server, PORT, MACH_MSG_TYPE_MAKE_SEND);
    tell("mod_refs of a receive right, with a sender",
         gelvonds_port_mod_refs(&kernel, server, PORT, MACH_PORT_RIGHT_RECEIVE, -1));
    gelvonds_port_request_notification(&kernel, server, WATCHED, MACH_NOTIFY_DEAD_NAME, 0, NOTICES,
                                       MACH_MSG_TYPE_MAKE_SEND_ONCE, &previous);
    tell("destroy of a receive right, with a request", gelvonds_port_destroy(&kernel, server, WATCHED));
}

/* A set of the server's, made under its old name with so many new members, which is destroyed. */
static gelvonds_code fill_and_destroy(gelvonds_name members) {
    gelvonds_port_allocate_name(&kernel, server, MACH_PORT_RIGHT_PORT_SET, SET);
    for (gelvonds_name i = 0; i < members; i++) {
        gelvonds_name name = FIRST_MEMBER + 10 * members + i;
        gelvonds_port_allocate_name(&kernel, server, MACH_PORT_RIGHT_RECEIVE, name);
        gelvonds_port_move_member(&kernel, server, name, SET);
    }
    return gelvonds_port_destroy(&kernel, server, SET);
}

/* What ends with all that is in it. */
static void end(void) {
    gelvonds_task idle;
    tell("destroy of a set", gelvonds_port_destroy(&kernel, server, SET));
    tell("destroy of a set of one", fill_and_destroy(1));
    tell("destroy of a set of three", fill_and_destroy(3));
    tell("destroy of a set of four", fill_and_destroy(4));
    tell("mod_refs of a set",
         gelvonds_port_mod_refs(&kernel, server, OTHER_SET, MACH_PORT_RIGHT_PORT_SET, -1));
    gelvonds_port_allocate_name(&kernel, server, MACH_PORT_RIGHT_RECEIVE, PORT);
    tell("a message with a receive right",
         send(server, NOTICES, MACH_MSG_TYPE_MAKE_SEND, PORT, MACH_MSG_TYPE_MOVE_RECEIVE));
    gelvonds_port_allocate_name(&kernel, server, MACH_PORT_RIGHT_RECEIVE, PORT);
    gelvonds_port_allocate_name(&kernel, server, MACH_PORT_RIGHT_RECEIVE, SPARE);
    send(server, SPARE, MACH_MSG_TYPE_MAKE_SEND, PORT, MACH_MSG_TYPE_MOVE_RECEIVE);
    tell("such a message is received", receive(server, SPARE, ROOM, false));
    send(server, SPARE, MACH_MSG_TYPE_MAKE_SEND, NOTICES, MACH_MSG_TYPE_MAKE_SEND);
    tell("one with a send right is received", receive(server, SPARE, ROOM, false));
    gelvonds_task_create(&kernel, &idle);
    tell("task_terminate of a task without names", gelvonds_task_terminate(&kernel, idle));
    gelvonds_port_insert_right(&kernel, client, SPARE, server, NOTICES, MACH_MSG_TYPE_MAKE_SEND);
    tell("task_terminate of a task with a send right and a dead name", gelvonds_task_terminate(&kernel, client));
    tell("task_terminate of a task with receive rights", gelvonds_task_terminate(&kernel, server));
}

int main(void) {
    if (gelvonds_make(&kernel) != KERN_SUCCESS)
        return 1;
    tell("nothing yet", KERN_SUCCESS);
    make();
    move();
    talk();
    hand();
    ask();
    lose();
    die();
    end();
    gelvonds_free(&kernel);
    return 0;
}
