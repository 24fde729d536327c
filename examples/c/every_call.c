/* Each function of gelvonds.h, once where it is done and once where it is refused. A line has the function's name, the
 * name of its code, and all that the function wrote through its pointers. What is refused leaves what was there before:
 * 4242 (1092 in hexadecimal), and bytes ee. */
#include "gelvonds.h"

#include <inttypes.h>
#include <stdio.h>
#include <string.h>

enum { BEFORE = 4242, HEADER = 24, ROOM = 40 };

/* Names of more than 16 bits: the server's port and set, and the client's send right for the port. */
enum { PORT = 70000, SET = 0x12345678, SERVICE = 300000 };

#define CALL(function, ...) tell(#function, function(__VA_ARGS__))

/* Begins a line: the function, and the name of its code. */
static void tell(const char *function, gelvonds_code code) {
    char name[GELVONDS_TEXT_ROOM];
    if (gelvonds_code_name(code, name, sizeof name) == 0)
        printf("%s: no name for %08" PRIx32, function, (uint32_t)code);
    else
        printf("%s: %s", function, name);
}

static void ends(void) {
    printf("\n");
}

/* A number that was written, or is there from before. */
static void ends_with(const char *what, uint32_t number) {
    printf(", %s %" PRIu32 "\n", what, number);
}

static void tell_words(const char *what, const uint32_t *words, size_t count) {
    printf(", %s", what);
    for (size_t i = 0; i < count; i++)
        printf(" %" PRIx32, words[i]);
}

static void put_word(uint8_t *at, uint32_t word) {
    for (int i = 0; i < 4; i++)
        at[i] = (uint8_t)(word >> (8 * i));
}

/* ---- texts, kernels, tasks ---- */

#define NAMED(code) { #code, code }
static const struct {
    const char *name;
    gelvonds_code code;
} named[] = {
    NAMED(KERN_SUCCESS),
    NAMED(KERN_NO_SPACE),
    NAMED(KERN_INVALID_ARGUMENT),
    NAMED(KERN_RESOURCE_SHORTAGE),
    NAMED(KERN_ALREADY_IN_SET),
    NAMED(KERN_NOT_IN_SET),
    NAMED(KERN_NAME_EXISTS),
    NAMED(KERN_INVALID_NAME),
    NAMED(KERN_INVALID_TASK),
    NAMED(KERN_INVALID_RIGHT),
    NAMED(KERN_INVALID_VALUE),
    NAMED(KERN_UREFS_OVERFLOW),
    NAMED(KERN_INVALID_CAPABILITY),
    NAMED(KERN_RIGHT_EXISTS),
    NAMED(MACH_SEND_INVALID_DATA),
    NAMED(MACH_SEND_INVALID_DEST),
    NAMED(MACH_SEND_TIMED_OUT),
    NAMED(MACH_SEND_MSG_TOO_SMALL),
    NAMED(MACH_SEND_INVALID_REPLY),
    NAMED(MACH_SEND_INVALID_RIGHT),
    NAMED(MACH_SEND_NO_BUFFER),
    NAMED(MACH_SEND_INVALID_TYPE),
    NAMED(MACH_SEND_INVALID_HEADER),
    NAMED(MACH_RCV_INVALID_NAME),
    NAMED(MACH_RCV_TIMED_OUT),
    NAMED(MACH_RCV_TOO_LARGE),
    NAMED(MACH_RCV_PORT_CHANGED),
    NAMED(MACH_RCV_PORT_DIED),
    NAMED(MACH_RCV_IN_SET),
    { "MACH_RCV_BODY_ERROR|MACH_MSG_IPC_SPACE", MACH_RCV_BODY_ERROR | MACH_MSG_IPC_SPACE },
    { "MACH_RCV_BODY_ERROR|MACH_MSG_IPC_KERNEL", MACH_RCV_BODY_ERROR | MACH_MSG_IPC_KERNEL },
    NAMED(GELVONDS_NO_KERNEL),
    NAMED(GELVONDS_IN_USE),
    NAMED(GELVONDS_TOO_SHORT),
    NAMED(GELVONDS_NO_WAITED),
    NAMED(GELVONDS_NO_ANSWER),
    NAMED(GELVONDS_NO_MSG),
    NAMED(GELVONDS_NO_ENTRY),
};

static void tell_text(const char *function, size_t length, const char *text) {
    printf("%s: length %zu, %s\n", function, length, text);
}

/* A name is written with a 0 behind it, where there is room for both. */
static void texts(void) {
    char text[GELVONDS_TEXT_ROOM];
    size_t right = 0, length;

    for (size_t i = 0; i < sizeof named / sizeof *named; i++) {
        length = gelvonds_code_name(named[i].code, text, sizeof text);
        if (length == strlen(named[i].name) && strcmp(text, named[i].name) == 0)
            right++;
        else
            tell_text(named[i].name, length, text);
    }
    printf("gelvonds_code_name: %zu codes have the names of the header\n", right);
    strcpy(text, "before");
    length = gelvonds_code_name(KERN_SUCCESS, text, strlen("KERN_SUCCESS"));
    tell_text("gelvonds_code_name", length, text);
    length = gelvonds_code_name(KERN_SUCCESS, text, strlen("KERN_SUCCESS") + 1);
    tell_text("gelvonds_code_name", length, text);
    length = gelvonds_code_name(-1, text, sizeof text);
    tell_text("gelvonds_code_name", length, text);

    strcpy(text, "before");
    gelvonds_version(text, strlen(GELVONDS_VERSION));
    printf("gelvonds_version: %s\n", text);
    length = gelvonds_version(text, sizeof text);
    if (length == strlen(GELVONDS_VERSION) && strcmp(text, GELVONDS_VERSION) == 0)
        printf("gelvonds_version: that of the header\n");
    else
        tell_text("gelvonds_version", length, text);
}

static void tell_identity(gelvonds *kernel, gelvonds_task task, gelvonds_name name) {
    gelvonds_waited found = { BEFORE, BEFORE };
    CALL(gelvonds_port_identity, kernel, task, name, &found);
    printf(", %" PRIu64 " of kind %" PRIu32 "\n", found.identity, found.kind);
}

static void tell_touched(gelvonds *kernel) {
    gelvonds_touched_places touched;
    memset(&touched, 0xee, sizeof touched);
    CALL(gelvonds_touched, kernel, &touched);
    for (int i = 0; i < 4; i++)
        printf(", %" PRIx64 " of kind %" PRIx32, touched.on[i].identity, touched.on[i].kind);
    printf(", all %" PRIx32 "\n", touched.all);
}

/* A handle gets a kernel, keeps it, and gives it up. */
static void kernels(void) {
    gelvonds kernel = GELVONDS_NONE;
    uint32_t profile = BEFORE;
    gelvonds_task task = BEFORE;

    CALL(gelvonds_profile, &kernel, &profile);
    ends_with("profile", profile);
    CALL(gelvonds_task_create, &kernel, &task);
    ends_with("task", task);
    tell_identity(&kernel, 0, 1);
    tell_touched(&kernel);
    CALL(gelvonds_make_with_profile, &kernel, 4);
    ends();
    CALL(gelvonds_make_with_profile, &kernel, 2);
    ends();
    tell_touched(&kernel);
    CALL(gelvonds_task_create, &kernel, &task);
    ends_with("task", task);
    /* (the kernel is still the same: it has a task, and its profile) */
    CALL(gelvonds_make, &kernel);
    ends();
    CALL(gelvonds_task_create, &kernel, &task);
    ends_with("task", task);
    CALL(gelvonds_profile, &kernel, &profile);
    ends_with("profile", profile);
    gelvonds_free(&kernel);
    gelvonds_free(&kernel);
    CALL(gelvonds_task_create, &kernel, &task);
    ends_with("task", task);
}

/* Tasks 0 and 1 live, task 2 has ended. */
static void tasks(gelvonds *kernel) {
    gelvonds_task task = BEFORE;
    uint32_t profile = BEFORE;

    CALL(gelvonds_make, kernel);
    ends();
    CALL(gelvonds_profile, kernel, &profile);
    ends_with("profile", profile);
    for (int i = 0; i < 3; i++) {
        CALL(gelvonds_task_create, kernel, &task);
        ends_with("task", task);
    }
    CALL(gelvonds_task_terminate, kernel, 2);
    ends();
    CALL(gelvonds_task_terminate, kernel, 2);
    ends();
}

/* ---- names of task 0 ---- */

static void tell_type(gelvonds *kernel, gelvonds_name name) {
    uint32_t type = BEFORE;
    CALL(gelvonds_port_type, kernel, 0, name, &type);
    tell_words("type", &type, 1);
    ends();
}

static void tell_refs(gelvonds *kernel, gelvonds_name name, uint32_t right) {
    uint32_t refs = BEFORE;
    CALL(gelvonds_port_get_refs, kernel, 0, name, right, &refs);
    ends_with("references", refs);
}

static gelvonds_name allocate(gelvonds *kernel, uint32_t right) {
    gelvonds_name name = BEFORE;
    CALL(gelvonds_port_allocate, kernel, 0, right, &name);
    ends_with("name", name);
    return name;
}

/* Makes the port and the set, and a port under 1 that becomes 9. */
static void names(gelvonds *kernel) {
    gelvonds_name dead;

    allocate(kernel, MACH_PORT_RIGHT_RECEIVE);
    allocate(kernel, MACH_PORT_RIGHT_SEND);
    CALL(gelvonds_port_allocate_name, kernel, 0, MACH_PORT_RIGHT_RECEIVE, PORT);
    ends();
    CALL(gelvonds_port_allocate_name, kernel, 0, MACH_PORT_RIGHT_PORT_SET, PORT);
    ends();
    CALL(gelvonds_port_allocate_name, kernel, 0, MACH_PORT_RIGHT_PORT_SET, SET);
    ends();
    CALL(gelvonds_port_rename, kernel, 0, 1, 9);
    ends();
    CALL(gelvonds_port_rename, kernel, 0, 1, 9);
    ends();
    tell_type(kernel, 9);
    tell_type(kernel, 1);
    dead = allocate(kernel, MACH_PORT_RIGHT_DEAD_NAME);
    tell_type(kernel, dead);
    CALL(gelvonds_port_destroy, kernel, 0, dead);
    ends();
    CALL(gelvonds_port_destroy, kernel, 0, dead);
    ends();
}

/* The server has send rights for its own port. */
static void references(gelvonds *kernel) {
    CALL(gelvonds_port_insert_right, kernel, 0, PORT, 0, PORT, MACH_MSG_TYPE_MAKE_SEND);
    ends();
    CALL(gelvonds_port_insert_right, kernel, 0, PORT, 0, 9, MACH_MSG_TYPE_MAKE_SEND);
    ends();
    CALL(gelvonds_port_mod_refs, kernel, 0, PORT, MACH_PORT_RIGHT_SEND, 4);
    ends();
    tell_refs(kernel, PORT, MACH_PORT_RIGHT_SEND);
    CALL(gelvonds_port_mod_refs, kernel, 0, PORT, MACH_PORT_RIGHT_SEND, -6);
    ends();
    CALL(gelvonds_port_deallocate, kernel, 0, PORT);
    ends();
    CALL(gelvonds_port_deallocate, kernel, 0, SET);
    ends();
    tell_refs(kernel, PORT, MACH_PORT_RIGHT_SEND);
    tell_refs(kernel, 1, MACH_PORT_RIGHT_SEND);
}

static void tell_names(gelvonds *kernel, size_t names_room, size_t types_room) {
    gelvonds_name names[] = { BEFORE, BEFORE, BEFORE, BEFORE };
    uint32_t types[] = { BEFORE, BEFORE, BEFORE, BEFORE };
    size_t count = BEFORE;
    CALL(gelvonds_port_names, kernel, 0, names, names_room, types, types_room, &count);
    printf(", count %zu", count);
    tell_words("names", names, 4);
    tell_words("types", types, 4);
    ends();
}

/* ---- the receive right, and sets ---- */

static void tell_status(gelvonds *kernel, gelvonds_name name) {
    gelvonds_status s;
    memset(&s, 0xee, sizeof s);
    CALL(gelvonds_port_get_receive_status, kernel, 0, name, &s);
    printf(", pset %" PRIx32 " seqno %" PRIx32 " mscount %" PRIx32 " qlimit %" PRIx32 " msgcount %" PRIx32, s.mps_pset,
           s.mps_seqno, s.mps_mscount, s.mps_qlimit, s.mps_msgcount);
    printf(" sorights %" PRIx32 " srights %" PRIx32 " pdrequest %" PRIx32 " nsrequest %" PRIx32 "\n", s.mps_sorights,
           s.mps_srights, s.mps_pdrequest, s.mps_nsrequest);
}

static void tell_members(gelvonds *kernel, gelvonds_name name, size_t room) {
    gelvonds_name members[] = { BEFORE, BEFORE, BEFORE };
    size_t count = BEFORE;
    CALL(gelvonds_port_get_set_status, kernel, 0, name, members, room, &count);
    printf(", count %zu", count);
    tell_words("members", members, 3);
    ends();
}

static void attributes(gelvonds *kernel) {
    CALL(gelvonds_port_set_qlimit, kernel, 0, PORT, 7);
    ends();
    tell_touched(kernel);
    CALL(gelvonds_port_set_qlimit, kernel, 0, PORT, 17);
    ends();
    CALL(gelvonds_port_set_mscount, kernel, 0, PORT, 11);
    ends();
    CALL(gelvonds_port_set_mscount, kernel, 0, 1, 11);
    ends();
    CALL(gelvonds_port_set_seqno, kernel, 0, PORT, 41);
    ends();
    CALL(gelvonds_port_set_seqno, kernel, 0, SET, 41);
    ends();
}

static void sets(gelvonds *kernel) {
    CALL(gelvonds_port_move_member, kernel, 0, 9, 0);
    ends();
    CALL(gelvonds_port_move_member, kernel, 0, 9, SET);
    ends();
    CALL(gelvonds_port_move_member, kernel, 0, PORT, SET);
    ends();
    CALL(gelvonds_port_insert_member, kernel, 0, PORT, SET);
    ends();
    CALL(gelvonds_port_extract_member, kernel, 0, PORT, SET);
    ends();
    tell_members(kernel, SET, 1);
    tell_members(kernel, SET, 2);
    tell_members(kernel, PORT, 3);
}

/* ---- rights for task 1, and notices ---- */

static void extract(gelvonds *kernel, gelvonds_name name, uint32_t disposition) {
    gelvonds_name poly = BEFORE;
    uint32_t kind = BEFORE;
    CALL(gelvonds_port_extract_right, kernel, 0, name, disposition, 1, &poly, &kind);
    printf(", poly %" PRIu32, poly);
    ends_with("kind", kind);
}

/* The client gets a send right and three send-once rights for the port. */
static void transfers(gelvonds *kernel) {
    CALL(gelvonds_port_insert_right, kernel, 1, SERVICE, 0, PORT, MACH_MSG_TYPE_MAKE_SEND);
    ends();
    extract(kernel, PORT, MACH_MSG_TYPE_COPY_SEND);
    for (int i = 0; i < 3; i++)
        extract(kernel, PORT, MACH_MSG_TYPE_MAKE_SEND_ONCE);
    extract(kernel, PORT, 22);
}

static void request(gelvonds *kernel, gelvonds_name name, uint32_t variant, uint32_t sync) {
    gelvonds_name previous = BEFORE;
    CALL(gelvonds_port_request_notification, kernel, 0, name, variant, sync, PORT, MACH_MSG_TYPE_MAKE_SEND_ONCE,
         &previous);
    ends_with("previous", previous);
}

/* A port with a request of each kind, and the name of the right that was kept for one before. */
static void notices(gelvonds *kernel) {
    gelvonds_name destroyed = allocate(kernel, MACH_PORT_RIGHT_RECEIVE);
    gelvonds_name no_senders = allocate(kernel, MACH_PORT_RIGHT_RECEIVE);

    request(kernel, destroyed, MACH_NOTIFY_PORT_DESTROYED, 0);
    request(kernel, destroyed, MACH_NOTIFY_PORT_DESTROYED, 1);
    request(kernel, no_senders, MACH_NOTIFY_NO_SENDERS, 2);
    tell_status(kernel, destroyed);
    tell_status(kernel, no_senders);
    request(kernel, no_senders, MACH_NOTIFY_NO_SENDERS, 2);
}

/* One port, by its receive right, a send right and a send-once right; a set, a dead name, and nothing. */
static void identities(gelvonds *kernel) {
    gelvonds_name dead = allocate(kernel, MACH_PORT_RIGHT_DEAD_NAME);

    tell_identity(kernel, 0, PORT);
    tell_identity(kernel, 1, SERVICE);
    tell_identity(kernel, 1, 1);
    tell_identity(kernel, 0, 1);
    tell_identity(kernel, 0, SET);
    tell_identity(kernel, 0, dead);
    tell_identity(kernel, 0, 5);
    tell_identity(kernel, 2, PORT);
}

/* ---- messages ---- */

/* Sends 32 bytes from task 1: a header, one item of four bytes. */
static void send(gelvonds *kernel, uint32_t id, gelvonds_name to, size_t length) {
    static const char *body = "\x08\x08\x04\x10ping";
    const uint32_t words[6] = { MACH_MSG_TYPE_COPY_SEND | MACH_MSGH_BITS_COMPLEX, 0, to, 0, 0, id };
    uint8_t message[HEADER + 8];
    for (int i = 0; i < 6; i++)
        put_word(message + 4 * i, words[i]);
    memcpy(message + HEADER, body, 8);
    CALL(gelvonds_send, kernel, 1, message, length);
    ends();
    tell_touched(kernel);
}

static void tell_received(const uint8_t *buffer, size_t length, const gelvonds_waited *waited) {
    printf(", length %zu, waited for %" PRIu64 " of kind %" PRIu32 ", bytes ", length, waited->identity, waited->kind);
    for (size_t i = 0; i < ROOM; i++)
        printf("%02x", buffer[i]);
    printf("\n");
}

static gelvonds_waited receive(gelvonds *kernel, gelvonds_name name, size_t room, bool large) {
    uint8_t buffer[ROOM];
    size_t length = BEFORE;
    gelvonds_waited waited = { BEFORE, BEFORE };
    memset(buffer, 0xee, sizeof buffer);
    CALL(gelvonds_receive, kernel, 0, name, buffer, room, large, &length, &waited);
    tell_received(buffer, length, &waited);
    return waited;
}

static void receive_again(gelvonds *kernel, gelvonds_waited waited) {
    uint8_t buffer[ROOM];
    size_t length = BEFORE;
    memset(buffer, 0xee, sizeof buffer);
    CALL(gelvonds_receive_again, kernel, 0, buffer, ROOM, true, &length, &waited);
    tell_received(buffer, length, &waited);
}

/* Three messages to the port, which are received by its set. */
static void messages(gelvonds *kernel) {
    gelvonds_waited waited;
    send(kernel, 0x01020304, SERVICE, HEADER + 8);
    send(kernel, 5, SERVICE, HEADER + 8);
    send(kernel, 6, 1, HEADER + 8);
    send(kernel, 6, SERVICE, HEADER - 4);
    tell_status(kernel, PORT);
    tell_status(kernel, SET);
    receive(kernel, PORT, ROOM, true);
    receive(kernel, SET, HEADER, true);
    receive(kernel, SET, ROOM, true);
    receive(kernel, SET, HEADER, false);
    waited = receive(kernel, SET, ROOM, true);
    receive_again(kernel, waited);
    send(kernel, 7, SERVICE, HEADER + 8);
    receive_again(kernel, waited);
    waited = receive(kernel, 2, ROOM, true);
    CALL(gelvonds_port_mod_refs, kernel, 0, 2, MACH_PORT_RIGHT_RECEIVE, -1);
    ends();
    receive_again(kernel, waited);
    waited.kind = 3;
    receive_again(kernel, waited);
}

/* ---- mach_msg: task 1 sends to the port of task 0, whose set it is received from ---- */

static const uint32_t SEND = MACH_SEND_MSG, RECEIVE = MACH_RCV_MSG;

/* What a call of gelvonds_msg_begin or gelvonds_msg_next left. */
static void tell_msg(const gelvonds_msg *msg, const uint8_t *buffer) {
    printf(", state %" PRIu32 " task %" PRIu32 " name %" PRIu32 " options %" PRIx32, msg->state, msg->task, msg->name, msg->options);
    tell_received(buffer, msg->length, &msg->waited);
}

static void put_message(uint8_t *message, uint32_t id, gelvonds_name to) {
    memset(message, 0, HEADER);
    put_word(message, MACH_MSG_TYPE_COPY_SEND);
    put_word(message + 8, to);
    put_word(message + 20, id);
}

/* Begins a call that sends a message without a body to this name, or receives from the other. */
static gelvonds_msg begin(gelvonds *kernel, gelvonds_task task, uint32_t options, gelvonds_name to, size_t room, gelvonds_name from) {
    uint8_t message[HEADER], buffer[ROOM];
    gelvonds_msg msg;
    memset(&msg, 0xee, sizeof msg);
    memset(buffer, 0xee, sizeof buffer);
    put_message(message, 9, to);
    CALL(gelvonds_msg_begin, kernel, &msg, task, options, message, sizeof message, buffer, room, from);
    tell_msg(&msg, buffer);
    return msg;
}

static void next(gelvonds *kernel, gelvonds_msg *msg, gelvonds_name to, size_t room) {
    uint8_t message[HEADER], buffer[ROOM];
    memset(buffer, 0xee, sizeof buffer);
    put_message(message, 9, to);
    CALL(gelvonds_msg_next, kernel, msg, message, sizeof message, buffer, room);
    tell_msg(msg, buffer);
}

/* A full queue is waited for, but not by a call with MACH_SEND_TIMEOUT. */
static void waits_for_room(gelvonds *kernel) {
    gelvonds_msg msg;
    CALL(gelvonds_port_set_qlimit, kernel, 0, PORT, 1);
    ends();
    receive(kernel, SET, ROOM, false);
    msg = begin(kernel, 1, SEND | MACH_SEND_INTERRUPT, SERVICE, ROOM, 0);
    next(kernel, &msg, SERVICE, ROOM);
    tell_identity(kernel, 0, PORT);
    msg = begin(kernel, 1, SEND, SERVICE, ROOM, 0);
    next(kernel, &msg, SERVICE, ROOM);
    begin(kernel, 1, SEND | MACH_SEND_TIMEOUT, SERVICE, ROOM, 0);
    receive(kernel, SET, ROOM, false);
    next(kernel, &msg, SERVICE, ROOM);
    begin(kernel, 1, SEND, 1, ROOM, 0);
}

/* A message is waited for, but not by a call with MACH_RCV_TIMEOUT. What was named stays the same, whatever its name. */
static void waits_for_message(gelvonds *kernel) {
    gelvonds_msg msg;
    begin(kernel, 0, RECEIVE | MACH_RCV_LARGE, 0, HEADER - 1, SET);
    begin(kernel, 0, RECEIVE, 0, HEADER - 1, SET);
    begin(kernel, 0, RECEIVE | MACH_RCV_TIMEOUT, 0, ROOM, SET);
    msg = begin(kernel, 0, RECEIVE | MACH_RCV_INTERRUPT, 0, ROOM, SET);
    CALL(gelvonds_port_rename, kernel, 0, SET, 8);
    ends();
    next(kernel, &msg, 0, ROOM);
    begin(kernel, 1, SEND, SERVICE, ROOM, 0);
    next(kernel, &msg, 0, ROOM);
    next(kernel, &msg, 0, ROOM);
}

/* Task 0 sends to its own port, and receives: three tries. */
static void sends_and_receives(gelvonds *kernel) {
    gelvonds_msg msg;
    CALL(gelvonds_port_insert_right, kernel, 0, PORT, 0, PORT, MACH_MSG_TYPE_MAKE_SEND);
    ends();
    begin(kernel, 1, SEND, SERVICE, ROOM, 0);
    msg = begin(kernel, 0, SEND | RECEIVE | MACH_RCV_TIMEOUT, PORT, ROOM, 8);
    receive(kernel, 8, ROOM, false);
    next(kernel, &msg, PORT, ROOM);
    next(kernel, &msg, PORT, ROOM);
    begin(kernel, 0, SEND | RECEIVE | MACH_SEND_TIMEOUT, 5, ROOM, 8);
}

/* Options that are none, structs that are none, and no kernel. */
static void no_messages(gelvonds *kernel) {
    gelvonds none = GELVONDS_NONE;
    gelvonds_msg msg = begin(kernel, 0, 0, PORT, ROOM, 8);
    begin(kernel, 0, SEND | 0x20, PORT, ROOM, 8);
    begin(kernel, 0, RECEIVE | 0x200, PORT, ROOM, 8);
    begin(kernel, 0, SEND | 0x80, PORT, ROOM, 8);
    begin(kernel, 2, SEND, PORT, ROOM, 8);
    msg.state = 4;
    next(kernel, &msg, PORT, ROOM);
    msg.state = GELVONDS_MSG_WAITS_FOR_MESSAGE;
    msg.waited.kind = GELVONDS_DEAD;
    next(kernel, &msg, PORT, ROOM);
    msg.state = GELVONDS_MSG_WAITS_FOR_ROOM;
    msg.options = SEND | 0x20;
    next(kernel, &msg, PORT, ROOM);
    msg = begin(&none, 0, RECEIVE, PORT, ROOM, 8);
    begin(&none, 0, SEND, PORT, ROOM, 8);
    next(&none, &msg, PORT, ROOM);
}

/* ---- the history ---- */

enum { LINE = 44 };

/* The text that was written, with $ for a line feed, and a dot where nothing was. */
static void tell_line(size_t length, const uint8_t *text) {
    printf(", length %zu, ", length);
    for (size_t i = 0; i < LINE; i++)
        putchar(text[i] == '\n' ? '$' : text[i]);
    printf("\n");
}

static void heading(gelvonds *kernel, size_t room) {
    uint8_t text[LINE];
    size_t length = BEFORE;
    memset(text, '.', sizeof text);
    CALL(gelvonds_heading, kernel, text, room, &length);
    tell_line(length, text);
}

static void entry(gelvonds *kernel, uint64_t caller, size_t room) {
    uint8_t text[LINE];
    size_t length = BEFORE;
    memset(text, '.', sizeof text);
    CALL(gelvonds_entry, kernel, caller, text, room, &length);
    tell_line(length, text);
}

static void check(const char *text) {
    gelvonds_verdict verdict = { BEFORE, BEFORE };
    CALL(gelvonds_check, (const uint8_t *)text, strlen(text), &verdict);
    printf(", number %" PRIu64 " of kind %" PRIu32 "\n", verdict.number, verdict.kind);
}

/* The line of the last call, once there is one, and a history that is judged. */
static void histories(void) {
    gelvonds kernel = GELVONDS_NONE;
    gelvonds_task task;
    gelvonds_name name;
    gelvonds_waited waited = { 0, 3 };
    uint8_t buffer[ROOM];
    size_t length;

    CALL(gelvonds_keep_entries, &kernel);
    ends();
    heading(&kernel, LINE);
    entry(&kernel, 0, LINE);
    gelvonds_make_with_profile(&kernel, 2);
    heading(&kernel, 15);
    heading(&kernel, 14);
    entry(&kernel, 0, LINE);
    CALL(gelvonds_keep_entries, &kernel);
    ends();
    entry(&kernel, 0, LINE);
    gelvonds_task_create(&kernel, &task);
    entry(&kernel, 0, LINE);
    entry(&kernel, 0, 4);
    entry(&kernel, UINT64_MAX, LINE);
    gelvonds_port_allocate(&kernel, task, MACH_PORT_RIGHT_RECEIVE, &name);
    entry(&kernel, 1, LINE);
    gelvonds_port_deallocate(&kernel, task, name);
    entry(&kernel, 2, LINE);
    gelvonds_port_names(&kernel, task, &name, 0, &name, 0, &length);
    entry(&kernel, 3, LINE);
    gelvonds_receive(&kernel, task, name, buffer, ROOM, true, &length, &waited);
    entry(&kernel, 4, LINE);
    /* (not made: no kind) */
    waited.kind = 3;
    gelvonds_receive_again(&kernel, task, buffer, ROOM, true, &length, &waited);
    entry(&kernel, 5, LINE);
    gelvonds_free(&kernel);

    check("mach-history 2\n0 task -> task 0\n1 alloc 0 1 -> name 256\n");
    check("mach-history 1\n0 task -> task 0\n1 alloc 0 1 -> name 256\n");
    check("mach-history 2\n0 task -> task 0\n1 alloc 0 1 -> name 256");
    check("mach-history 4\n");
}

int main(void) {
    gelvonds kernel = GELVONDS_NONE;
    texts();
    kernels();
    tasks(&kernel);
    names(&kernel);
    references(&kernel);
    tell_names(&kernel, 4, 2);
    tell_names(&kernel, 2, 4);
    tell_names(&kernel, 3, 3);
    attributes(&kernel);
    sets(&kernel);
    transfers(&kernel);
    notices(&kernel);
    identities(&kernel);
    messages(&kernel);
    waits_for_room(&kernel);
    waits_for_message(&kernel);
    sends_and_receives(&kernel);
    no_messages(&kernel);
    gelvonds_free(&kernel);
    histories();
    return 0;
}
