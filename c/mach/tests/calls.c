/* Each call, done and refused, by one thread, and what a timeout, fork and a lost reply do. */
#define _DEFAULT_SOURCE 1
#include "check.h"

#include <sys/wait.h>
#include <time.h>
#include <unistd.h>

static void test_names(void)
{
    const task_t self = mach_task_self();
    mach_port_t port = new_port(), dead, other;
    mach_port_type_t type;
    mach_port_urefs_t refs;
    mach_port_name_array_t names;
    mach_port_type_array_t types;
    mach_msg_type_number_t count, types_count;
    MUST(mach_port_type(self, port, &type));
    IS(type, MACH_PORT_TYPE_SEND_RECEIVE);
    WANT(mach_port_type(self, 999, &type), KERN_INVALID_NAME);
    WANT(mach_port_type(TASK_NULL, port, &type), KERN_INVALID_TASK);
    WANT(mach_port_type(port, port, &type), KERN_INVALID_TASK);
    MUST(mach_port_allocate_name(self, MACH_PORT_RIGHT_DEAD_NAME, 77));
    WANT(mach_port_allocate_name(self, MACH_PORT_RIGHT_DEAD_NAME, 77), KERN_NAME_EXISTS);
    WANT(mach_port_allocate(self, 9, &dead), KERN_INVALID_VALUE);
    MUST(mach_port_mod_refs(self, 77, MACH_PORT_RIGHT_DEAD_NAME, 2));
    MUST(mach_port_get_refs(self, 77, MACH_PORT_RIGHT_DEAD_NAME, &refs));
    IS(refs, 3);
    MUST(mach_port_deallocate(self, 77));
    MUST(mach_port_rename(self, 77, 78));
    WANT(mach_port_rename(self, 77, 79), KERN_INVALID_NAME);
    MUST(mach_port_names(self, &names, &count, &types, &types_count));
    IS(count, 2);
    IS(types_count, 2);
    IS(names[0], port);
    IS(names[1], 78);
    IS(types[1], MACH_PORT_TYPE_DEAD_NAME);
    MUST(vm_deallocate(self, (vm_address_t)names, count * sizeof *names));
    MUST(vm_deallocate(self, (vm_address_t)types, count * sizeof *types));
    MUST(mach_port_destroy(self, 78));
    WANT(mach_port_destroy(self, 78), KERN_INVALID_NAME);
    MUST(mach_port_extract_right(self, port, MACH_MSG_TYPE_MAKE_SEND_ONCE, &other, &type));
    IS(type, MACH_MSG_TYPE_PORT_SEND_ONCE);
    MUST(mach_port_deallocate(self, other));
    WANT(mach_port_extract_right(self, other, MACH_MSG_TYPE_MOVE_SEND, &other, &type), KERN_INVALID_NAME);
    MUST(mach_port_destroy(self, port));
}

static void test_receive_rights(void)
{
    const task_t self = mach_task_self();
    mach_port_t port = new_port(), set, previous;
    mach_port_status_t status;
    mach_port_name_array_t members;
    mach_msg_type_number_t count;
    MUST(mach_port_allocate(self, MACH_PORT_RIGHT_PORT_SET, &set));
    MUST(mach_port_move_member(self, port, set));
    MUST(mach_port_get_set_status(self, set, &members, &count));
    IS(count, 1);
    IS(members[0], port);
    MUST(vm_deallocate(self, (vm_address_t)members, count * sizeof *members));
    MUST(mach_port_set_qlimit(self, port, 3));
    WANT(mach_port_set_qlimit(self, port, MACH_PORT_QLIMIT_MAX + 1), KERN_INVALID_VALUE);
    MUST(mach_port_set_mscount(self, port, 4));
    MUST(mach_port_set_seqno(self, port, 9));
    MUST(mach_port_request_notification(self, port, MACH_NOTIFY_PORT_DESTROYED, 0, port, MACH_MSG_TYPE_MAKE_SEND_ONCE,
                                        &previous));
    IS(previous, MACH_PORT_NULL);
    MUST(mach_port_get_receive_status(self, port, &status));
    IS(status.mps_pset, set);
    IS(status.mps_seqno, 9);
    IS(status.mps_mscount, 4);
    IS(status.mps_qlimit, 3);
    IS(status.mps_msgcount, 0);
    IS(status.mps_srights, TRUE);
    IS(status.mps_pdrequest, TRUE);
    IS(status.mps_nsrequest, FALSE);
    MUST(mach_port_request_notification(self, port, MACH_NOTIFY_PORT_DESTROYED, 0, MACH_PORT_NULL,
                                        MACH_MSG_TYPE_MAKE_SEND_ONCE, &previous));
    WANT(mach_port_move_member(self, port, port), KERN_INVALID_RIGHT);
    MUST(mach_port_move_member(self, port, MACH_PORT_NULL));
    WANT(mach_port_move_member(self, port, MACH_PORT_NULL), KERN_NOT_IN_SET);
    WANT(mach_port_insert_member(self, port, set), KERN_INVALID_ARGUMENT);
    WANT(mach_port_extract_member(self, port, set), KERN_INVALID_ARGUMENT);
    MUST(mach_port_destroy(self, set));
    MUST(mach_port_destroy(self, port));
}

static long milliseconds_since(const struct timespec *from)
{
    struct timespec now;
    clock_gettime(CLOCK_MONOTONIC, &now);
    return (long)(now.tv_sec - from->tv_sec) * 1000 + (now.tv_nsec - from->tv_nsec) / 1000000;
}

static void test_timeouts(void)
{
    mach_port_t port = new_port();
    number_message message;
    struct timespec from;
    clock_gettime(CLOCK_MONOTONIC, &from);
    WANT(receive_number(port, &message, MACH_RCV_TIMEOUT, 0), MACH_RCV_TIMED_OUT);
    WANT(receive_number(port, &message, MACH_RCV_TIMEOUT, 30), MACH_RCV_TIMED_OUT);
    IS(milliseconds_since(&from) >= 30, true);
    MUST(mach_port_set_qlimit(mach_task_self(), port, 1));
    MUST(send_number(port, 1, MACH_PORT_NULL, 0, 0));
    WANT(send_number(port, 2, MACH_PORT_NULL, MACH_SEND_TIMEOUT, 0), MACH_SEND_TIMED_OUT);
    clock_gettime(CLOCK_MONOTONIC, &from);
    WANT(send_number(port, 2, MACH_PORT_NULL, MACH_SEND_TIMEOUT, 30), MACH_SEND_TIMED_OUT);
    IS(milliseconds_since(&from) >= 30, true);
    MUST(receive_number(port, &message, 0, 0));
    IS(message.number, 1);
    IS(message.head.msgh_size, sizeof message);
    MUST(mach_port_destroy(mach_task_self(), port));
}

static void test_lengths_and_options(void)
{
    mach_port_t port = new_port();
    number_message message;
    MUST(send_number(port, 5, MACH_PORT_NULL, MACH_SEND_INTERRUPT, 0));
    WANT(mach_msg(&message.head, MACH_RCV_MSG | MACH_RCV_LARGE, 0, sizeof message.head, port, 0, MACH_PORT_NULL),
         MACH_RCV_TOO_LARGE);
    IS(message.head.msgh_size, sizeof message);
    WANT(mach_msg(&message.head, MACH_RCV_MSG, 0, sizeof message.head, port, 0, MACH_PORT_NULL), MACH_RCV_TOO_LARGE);
    WANT(receive_number(port, &message, MACH_RCV_TIMEOUT | MACH_RCV_INTERRUPT, 0), MACH_RCV_TIMED_OUT);
    MUST(mach_msg(&message.head, MACH_MSG_OPTION_NONE, 0, 0, port, 0, MACH_PORT_NULL));
    WANT(mach_msg(&message.head, MACH_RCV_MSG | 0x200, 0, sizeof message, port, 0, MACH_PORT_NULL),
         KERN_INVALID_ARGUMENT);
    WANT(mach_msg(&message.head, MACH_SEND_MSG, 20, 0, MACH_PORT_NULL, 0, MACH_PORT_NULL), MACH_SEND_MSG_TOO_SMALL);
    WANT(receive_number(999, &message, 0, 0), MACH_RCV_INVALID_NAME);
    MUST(mach_port_destroy(mach_task_self(), port));
}

/* A message with two rights in its body, given up as it was received. */
static void test_destroy(void)
{
    struct {
        mach_msg_header_t head;
        mach_msg_type_t type;
        mach_port_t ports[2];
    } message;
    const task_t self = mach_task_self();
    mach_port_t port = new_port(), sent = new_port(), lost = new_port();
    number_message notice;
    mach_port_urefs_t refs;
    memset(&message, 0, sizeof message);
    message.head.msgh_bits =
        MACH_MSGH_BITS_COMPLEX | MACH_MSGH_BITS(MACH_MSG_TYPE_COPY_SEND, MACH_MSG_TYPE_MAKE_SEND_ONCE);
    message.head.msgh_remote_port = port;
    message.head.msgh_local_port = lost;
    message.type.msgt_name = MACH_MSG_TYPE_MAKE_SEND;
    message.type.msgt_size = 32;
    message.type.msgt_number = 2;
    message.type.msgt_inline = TRUE;
    message.ports[0] = message.ports[1] = sent;
    MUST(mach_msg(&message.head, MACH_SEND_MSG | MACH_RCV_MSG, sizeof message, sizeof message, port, 0,
                  MACH_PORT_NULL));
    MUST(mach_port_get_refs(self, sent, MACH_PORT_RIGHT_SEND, &refs));
    IS(refs, 3);
    mach_msg_destroy(&message.head);
    MUST(mach_port_get_refs(self, sent, MACH_PORT_RIGHT_SEND, &refs));
    IS(refs, 1);
    MUST(receive_number(lost, &notice, 0, 0));
    IS(notice.head.msgh_id, MACH_NOTIFY_SEND_ONCE);
    MUST(mach_port_destroy(self, port));
    MUST(mach_port_destroy(self, sent));
    MUST(mach_port_destroy(self, lost));
}

static void test_mig_support(void)
{
    char text[8];
    vm_address_t at;
    const mach_port_t replies = mig_get_reply_port();
    mach_port_type_t type;
    IS(mig_get_reply_port(), replies);
    mig_put_reply_port(replies);
    MUST(mach_port_type(mach_task_self(), replies, &type));
    mig_dealloc_reply_port(replies);
    WANT(mach_port_type(mach_task_self(), replies, &type), KERN_INVALID_NAME);
    memset(text, 'x', sizeof text);
    IS(mig_strncpy(text, "ab", sizeof text), 3);
    IS(memcmp(text, "ab\0\0\0\0\0", sizeof text), 0);
    IS(mig_strncpy(text, "too long a text", sizeof text), 8);
    IS(strcmp(text, "too lon"), 0);
    IS(mig_strncpy(text, "x", 0), 0);
    mig_allocate(&at, 5000);
    IS(at != 0, true);
    memset((void *)at, 1, 5000);
    mig_deallocate(at, 5000);
    IS(strcmp(mach_error_string(MIG_NO_REPLY), "MIG_NO_REPLY"), 0);
    IS(strcmp(mach_error_string(MACH_SEND_INVALID_DEST), "MACH_SEND_INVALID_DEST"), 0);
    IS(strcmp(mach_error_string(12345), "unknown code"), 0);
}

static void test_bootstrap(void)
{
    const task_t self = mach_task_self();
    mach_port_t port = new_port(), got = MACH_PORT_DEAD;
    task_t child, heir;
    mach_port_urefs_t refs;
    MUST(task_get_bootstrap_port(self, &got));
    IS(got, MACH_PORT_NULL);
    WANT(task_set_bootstrap_port(self, 999), KERN_INVALID_NAME);
    MUST(gelvonds_mach_task_create(&child));
    MUST(task_set_bootstrap_port(child, port));
    MUST(task_get_bootstrap_port(child, &got));
    IS(got, port);
    MUST(mach_port_get_refs(self, port, MACH_PORT_RIGHT_SEND, &refs));
    IS(refs, 2);
    MUST(task_set_bootstrap_port(self, port));
    MUST(gelvonds_mach_task_create(&heir));
    MUST(task_set_bootstrap_port(self, MACH_PORT_NULL));
    MUST(task_get_bootstrap_port(heir, &got));
    IS(got, port);
    MUST(task_terminate(child));
    WANT(task_terminate(child), KERN_INVALID_TASK);
    WANT(task_get_bootstrap_port(child, &got), KERN_INVALID_TASK);
    MUST(task_terminate(heir));
    MUST(mach_port_destroy(self, port));
}

/* The child's calls are refused; the parent goes on. */
static void test_fork(void)
{
    mach_port_t port = new_port(), any;
    number_message message;
    int status;
    pid_t child = fork();
    if (child == 0) {
        WANT(mach_port_allocate(mach_task_self(), MACH_PORT_RIGHT_RECEIVE, &any), KERN_INVALID_TASK);
        WANT(receive_number(port, &message, MACH_RCV_TIMEOUT, 0), KERN_INVALID_TASK);
        IS(mach_task_self(), TASK_NULL);
        IS(mach_reply_port(), MACH_PORT_NULL);
        IS(mig_get_reply_port(), MACH_PORT_NULL);
        exit(atomic_load(&wrong));
    }
    IS(waitpid(child, &status, 0), child);
    IS(status, 0);
    MUST(send_number(port, 3, MACH_PORT_NULL, 0, 0));
    MUST(receive_number(port, &message, 0, 0));
    MUST(mach_port_destroy(mach_task_self(), port));
}

int main(void)
{
    test_names();
    test_receive_rights();
    test_timeouts();
    test_lengths_and_options();
    test_destroy();
    test_mig_support();
    test_bootstrap();
    test_fork();
    return ends();
}
