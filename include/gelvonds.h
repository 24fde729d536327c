/* Gelvonds for C: Mach 3 port IPC in one process, by calls of a kernel of one's own.
 *
 * Each function from gelvonds_task_create on makes one call of a task, by the kernel's own step, and answers its
 * code: Mach's number, or one of the library's own (GELVONDS_..). The last two, gelvonds_msg_begin and
 * gelvonds_msg_next, make at most one. The functions before gelvonds_task_create make and end a kernel, tell its
 * profile, which port a name is, the lines of its history, the version and the name of a code, and judge a history.
 * The Mach calls are those of Keith Loepere, Mach 3 Kernel Interfaces (1992), in the chapter that each comment names;
 * docs/CALLS.md says what each does and which refusal comes first. docs/EMBEDDING.md says how to build and link.
 *
 * Each of the functions that make a call, but gelvonds_receive_again, may also answer
 *   GELVONDS_NO_KERNEL  the handle holds no kernel
 *   KERN_INVALID_TASK   (not gelvonds_task_create) a task that it names doesn't live
 * and gelvonds_receive_again GELVONDS_NO_KERNEL, GELVONDS_NO_WAITED and KERN_INVALID_TASK. Where another
 * code than 0 comes, nothing is written through a pointer, but for what a function's comment says.
 *
 * What can't be told, and so is left to the caller:
 *   - that a handle was set to GELVONDS_NONE, and then only by this library: never copied and used twice;
 *   - that one call at a time uses a handle. C may pass the handle to another thread, and orders that by a lock,
 *     a thread's start or join, or a SeqCst atomic. So threads that share a kernel hold one lock in each call;
 *   - that no pointer is NULL, also not one beside a length of 0, that each points to as many places as the
 *     call says, and that no two overlap. */
#ifndef GELVONDS_H
#define GELVONDS_H

#include <stdbool.h>
#include <stddef.h>
#include <stdint.h>

/* The version of this header, and of the library that was installed with it. */
#define GELVONDS_VERSION "1.0.0"

#ifdef __cplusplus
extern "C" {
#endif

/* A kernel: its tasks, their names, ports and queued messages. The field is the library's own. */
typedef struct gelvonds {
    void *kernel;
} gelvonds;

/* What a handle is before it holds a kernel. */
#define GELVONDS_NONE { 0 }

/* A task's number, from 0 in the order of their creation; never used again. */
typedef uint32_t gelvonds_task;
/* mach_port_t: a task's name of a right. 0 is MACH_PORT_NULL, 0xffffffff MACH_PORT_DEAD. */
typedef uint32_t gelvonds_name;
/* kern_return_t and mach_msg_return_t. */
typedef int32_t gelvonds_code;

/* mach_port_status_t. */
typedef struct gelvonds_status {
    gelvonds_name mps_pset; /* the least of the task's names of the port's sets, or 0 */
    uint32_t mps_seqno;     /* the sequence number of the next message received */
    uint32_t mps_mscount;   /* how many send rights were made from the receive right */
    uint32_t mps_qlimit;    /* the queue limit, 0 to 16 */
    uint32_t mps_msgcount;  /* the messages queued */
    uint32_t mps_sorights;  /* the port's send-once rights, anywhere */
    uint32_t mps_srights;   /* 1 where the port has a send right anywhere, else 0 */
    uint32_t mps_pdrequest; /* 1 where a port-destroyed request stands, else 0 */
    uint32_t mps_nsrequest; /* 1 where a no-senders request stands, else 0 */
} gelvonds_status;

/* What a receive that found no message waited for: a port or a set, by identity, whatever its name is. Ports have
 * identities of their own, and so have sets. No other port or set of the kernel ever has the same. */
typedef struct gelvonds_waited {
    uint64_t identity;
    uint32_t kind; /* GELVONDS_PORT or GELVONDS_SET */
} gelvonds_waited;

#define GELVONDS_PORT 1u
#define GELVONDS_SET 2u
#define GELVONDS_DEAD 3u /* of gelvonds_port_identity alone */

/* A message call between its tries: gelvonds_msg_begin fills it in, and gelvonds_msg_next goes on with it. It has no
 * pointer and nothing to give back, so it may lie on the stack, be copied, and be left at any time. */
typedef struct gelvonds_msg {
    uint32_t state;         /* GELVONDS_MSG_.. */
    gelvonds_task task;     /* who sends and receives */
    gelvonds_name name;     /* the name that is received from */
    uint32_t options;       /* MACH_SEND_.. and MACH_RCV_.., but for those of interruption */
    size_t length;          /* once it has ended: how many bytes were received, or are needed; else 0 */
    gelvonds_waited waited; /* while it waits: on which port or set; else the kind 0 */
} gelvonds_msg;

/* What a gelvonds_msg waits for. */
#define GELVONDS_MSG_DONE 0u              /* the call has ended */
#define GELVONDS_MSG_WAITS_FOR_ROOM 1u    /* the queue of the port is full */
#define GELVONDS_MSG_SENT 2u              /* nothing: the message was sent, and one is to be received */
#define GELVONDS_MSG_WAITS_FOR_MESSAGE 3u /* the port or set has no message */

/* The ports and sets that a call may have changed for one that waits: a queue, a limit, members, or where a receive right
 * lies. A place is free where its kind is 0. */
typedef struct gelvonds_touched_places {
    gelvonds_waited on[4];
    uint32_t all; /* 1 where it may be any port and any set, else 0 */
} gelvonds_touched_places;

/* The verdict of gelvonds_check on a history's text. */
typedef struct gelvonds_verdict {
    uint64_t number; /* how many calls a legal history has; else the number of the line or of the call, from 1 */
    uint32_t kind;   /* GELVONDS_LEGAL, GELVONDS_BAD_LINE or GELVONDS_NOT_CONFIRMED */
} gelvonds_verdict;

#define GELVONDS_LEGAL 1u         /* the calls and their replies are a run of the machine */
#define GELVONDS_BAD_LINE 2u      /* the line of this number is the first that no history has there */
#define GELVONDS_NOT_CONFIRMED 3u /* the call of this number is the first whose reply isn't confirmed */

/* Codes of the library's own. */
#define GELVONDS_NO_KERNEL 0x47000001 /* the handle holds no kernel */
#define GELVONDS_IN_USE 0x47000002    /* the handle holds a kernel already */
#define GELVONDS_TOO_SHORT 0x47000003 /* a list is longer than the array: its length was told */
#define GELVONDS_NO_WAITED 0x47000004 /* a gelvonds_waited whose kind is neither */
#define GELVONDS_NO_ANSWER 0x47000005 /* the kernel's answer is none that the call has: never comes */
#define GELVONDS_NO_MSG 0x47000006    /* a gelvonds_msg with no try to come: it has ended, or was never begun */
#define GELVONDS_NO_ENTRY 0x47000007  /* no line of a last call is kept (gelvonds_entry) */

/* kern_return_t. */
#ifndef KERN_SUCCESS
#define KERN_SUCCESS 0
#define KERN_NO_SPACE 3           /* a limit of names, tasks, rights or identities */
#define KERN_INVALID_ARGUMENT 4
#define KERN_RESOURCE_SHORTAGE 6  /* memory was refused */
#define KERN_ALREADY_IN_SET 11
#define KERN_NOT_IN_SET 12
#define KERN_NAME_EXISTS 13
#define KERN_INVALID_NAME 15
#define KERN_INVALID_TASK 16
#define KERN_INVALID_RIGHT 17
#define KERN_INVALID_VALUE 18
#define KERN_UREFS_OVERFLOW 19    /* more than 65,535 user references */
#define KERN_INVALID_CAPABILITY 20
#define KERN_RIGHT_EXISTS 21      /* the task has the port under another name */
#endif

/* mach_msg_return_t. */
#ifndef MACH_MSG_SUCCESS
#define MACH_MSG_SUCCESS 0
#define MACH_SEND_INVALID_DATA 0x10000002
#define MACH_SEND_INVALID_DEST 0x10000003
#define MACH_SEND_TIMED_OUT 0x10000004
#define MACH_SEND_MSG_TOO_SMALL 0x10000008
#define MACH_SEND_INVALID_REPLY 0x10000009
#define MACH_SEND_INVALID_RIGHT 0x1000000a
#define MACH_SEND_NO_BUFFER 0x1000000d
#define MACH_SEND_INVALID_TYPE 0x1000000f
#define MACH_SEND_INVALID_HEADER 0x10000010
#define MACH_RCV_INVALID_NAME 0x10004002
#define MACH_RCV_TIMED_OUT 0x10004003
#define MACH_RCV_TOO_LARGE 0x10004004
#define MACH_RCV_PORT_CHANGED 0x10004006
#define MACH_RCV_PORT_DIED 0x10004009
#define MACH_RCV_IN_SET 0x1000400a
#define MACH_RCV_BODY_ERROR 0x1000400c
#define MACH_MSG_IPC_SPACE 0x00002000
#define MACH_MSG_IPC_KERNEL 0x00000800
#endif

/* The options of mach_msg (mach_msg_option_t), of gelvonds_msg_begin. */
#ifndef MACH_SEND_MSG
#define MACH_SEND_MSG 0x00000001u
#define MACH_RCV_MSG 0x00000002u
#define MACH_SEND_TIMEOUT 0x00000010u   /* one try to send */
#define MACH_SEND_INTERRUPT 0x00000040u /* interrupts nothing */
#define MACH_RCV_TIMEOUT 0x00000100u    /* one try to receive */
#define MACH_RCV_INTERRUPT 0x00000400u  /* interrupts nothing */
#define MACH_RCV_LARGE 0x00000800u      /* a message longer than the room stays */
#endif

/* Words that are never names: no port, and a port that has died. */
#ifndef MACH_PORT_NULL
#define MACH_PORT_NULL 0u
#define MACH_PORT_DEAD 0xffffffffu
#endif

/* The kinds of rights (mach_port_right_t), and the bits of a name's type (mach_port_type_t). */
#ifndef MACH_PORT_RIGHT_SEND
#define MACH_PORT_RIGHT_SEND 0u
#define MACH_PORT_RIGHT_RECEIVE 1u
#define MACH_PORT_RIGHT_SEND_ONCE 2u
#define MACH_PORT_RIGHT_PORT_SET 3u
#define MACH_PORT_RIGHT_DEAD_NAME 4u
#define MACH_PORT_TYPE_SEND 0x00010000u
#define MACH_PORT_TYPE_RECEIVE 0x00020000u
#define MACH_PORT_TYPE_SEND_ONCE 0x00040000u
#define MACH_PORT_TYPE_PORT_SET 0x00080000u
#define MACH_PORT_TYPE_DEAD_NAME 0x00100000u
#define MACH_PORT_TYPE_DNREQUEST 0x80000000u /* a dead-name request stands on the name */
#endif

/* The ids of notices; those of 69, 70 and 72 are also the variants of requests. */
#ifndef MACH_NOTIFY_PORT_DELETED
#define MACH_NOTIFY_PORT_DELETED 65
#define MACH_NOTIFY_PORT_DESTROYED 69
#define MACH_NOTIFY_NO_SENDERS 70
#define MACH_NOTIFY_SEND_ONCE 71
#define MACH_NOTIFY_DEAD_NAME 72
#endif

/* How a right is taken from a name (mach_msg_type_name_t). The first three are also the kind of a right that
 * was received. */
#ifndef MACH_MSG_TYPE_MOVE_RECEIVE
#define MACH_MSG_TYPE_MOVE_RECEIVE 16u   /* the receive right goes */
#define MACH_MSG_TYPE_MOVE_SEND 17u      /* one reference of a send right goes */
#define MACH_MSG_TYPE_MOVE_SEND_ONCE 18u /* the send-once right goes, and its name */
#define MACH_MSG_TYPE_COPY_SEND 19u      /* a send right stays, and another is given */
#define MACH_MSG_TYPE_MAKE_SEND 20u      /* a send right, made of the receive right under the name */
#define MACH_MSG_TYPE_MAKE_SEND_ONCE 21u /* a send-once right, made of the receive right under the name */
#endif

/* The first word of a message's header: the dispositions of its destination and of the reply's right, and the bit
 * that says that the body is a list of items. */
#ifndef MACH_MSGH_BITS
#define MACH_MSGH_BITS(remote, local) ((remote) | ((local) << 8))
#define MACH_MSGH_BITS_COMPLEX 0x80000000u
#endif

/* ---- the kernel ---- */

/* Makes a kernel of profile 1 in which nothing was made yet.
 * GELVONDS_IN_USE: the handle holds a kernel already, which stays; KERN_RESOURCE_SHORTAGE: memory, and the handle
 * holds none. */
gelvonds_code gelvonds_make(gelvonds *kernel);

/* The same, of this profile, which says how the kernel makes the fresh names that it gives a task, and in how many sets
 * a port may be:
 *   1  the least number, from 1, that the task doesn't use
 *   2  the least index, from 1, that no name of the task has, times 256, plus how often a fresh name was given
 *      to the task at that index before, modulo 256. The index of a name is the name / 256. So the first is 256,
 *      the next 512, and once 512 is given up 513 comes: not the same name for another right.
 *   3  names as in 2, and a port may be in several sets (gelvonds_port_insert_member); in 1 and 2 in one at most
 * Names that a caller chooses may be any, and aren't counted. The refusals, in this order: GELVONDS_IN_USE: the
 * handle holds a kernel already, which stays, whatever the profile is; KERN_INVALID_ARGUMENT: another profile;
 * KERN_RESOURCE_SHORTAGE: memory. By the last two no kernel is made, and the handle holds none. */
gelvonds_code gelvonds_make_with_profile(gelvonds *kernel, uint32_t profile);

/* Ends the kernel: gives back all its memory, and the handle holds none. Nothing where it holds none. */
void gelvonds_free(gelvonds *kernel);

/* The kernel's profile, 1, 2 or 3. Makes no call, and changes nothing.
 * GELVONDS_NO_KERNEL: the handle holds no kernel. */
gelvonds_code gelvonds_profile(gelvonds *kernel, uint32_t *profile);

/* Which port or set is under the task's name, by identity, in the form in which a receive tells what it waited for.
 * Any right for a port tells that port, so two names, of one task or of two, are of one port where kind and identity
 * are the same. The kind of a dead name is GELVONDS_DEAD, and the identity 0. A send that found the queue full waits for
 * room at the port that its destination's name is. Makes no call, and changes nothing.
 * The refusals, in this order: GELVONDS_NO_KERNEL: the handle holds no kernel; KERN_INVALID_TASK: the task doesn't
 * live; KERN_INVALID_NAME: nothing is under the name. */
gelvonds_code gelvonds_port_identity(gelvonds *kernel, gelvonds_task task, gelvonds_name name, gelvonds_waited *found);

/* Which ports and sets the kernel's last call may have changed; all others are for one that waits as they were before
 * it. None before the first call, after the kernel's refusals, after calls that only ask, a receive that found nothing
 * or a message that is too long and stays, gelvonds_task_create, gelvonds_port_rename, gelvonds_port_set_mscount and
 * gelvonds_port_set_seqno. None too where only send rights, dead names and their references went
 * (gelvonds_port_deallocate, gelvonds_port_destroy, gelvonds_port_mod_refs, gelvonds_task_terminate), and where a right
 * that is no receive right went to another task (gelvonds_port_insert_right, gelvonds_port_extract_right).
 * After gelvonds_port_set_qlimit, gelvonds_port_allocate and gelvonds_port_allocate_name the port under the name, if
 * one is. After gelvonds_port_move_member, and where a receive right went to another task, the port with the set that
 * it was in and the one that it is in. After gelvonds_port_insert_member and gelvonds_port_extract_member the port and
 * the set. A message names its port and the port's sets, if these are three at most. It may be any where a port moved
 * out of several sets or died there, and after a call that concerns a port in several sets and another port. A message
 * that was sent with one receive right names that right's port too, and the set that it was in; so does one with two or
 * three, where with the sets concerned four places suffice. One that was received names the ports too whose receive
 * rights came with it: one or two, or three if its own port is in no set. A message that was destroyed as too
 * long names its port and the port's set, if it carried no receive right and one send-once right at most; the port
 * that this one tells is named too, with its set. gelvonds_port_request_notification names the port that the notice
 * goes to. A lost send-once right names its port, and so does a receive right that was destroyed, where nothing was
 * queued at its port and no request was on it or on a name of it; a port's set is named with it. A destroyed set
 * names itself and its members, if they were three at most and there was memory for their list. After each other
 * call, and where other ports died or other notices were sent, it may be any. A code of the library's own comes
 * without a call of the kernel, and so does a code for out of memory where calls are kept and the copies found no
 * room: then it stays what the call before touched. Makes no call, and changes nothing.
 * GELVONDS_NO_KERNEL: the handle holds no kernel, and nothing is written. */
gelvonds_code gelvonds_touched(gelvonds *kernel, gelvonds_touched_places *touched);

/* ---- the history ----
 * The calls of a kernel, line by line, as mach_run writes them (docs/FORMATS.md): a heading, and then for each call the
 * number of its caller, the call, -> and its reply. A program asks for the heading once and for the line of each call
 * behind it, writes them one behind the other, and has the text judged. Threads that share a kernel hold their lock over
 * a call and the asking for its line. None of the four makes a call, and what the last call was stays. The last call is
 * that of the last function from gelvonds_task_create on with this handle. Where it wasn't made it has no line. */

/* Keeps each call from now on with its reply, for gelvonds_entry, until gelvonds_free. Each call then takes memory for
 * the copies first: for the bytes of a message that is sent, and for what its reply may have, which of a receive is its
 * room, 65,536 bytes at most, and of a list the task's names. Where that is refused the call isn't made, and its code
 * is that of out of memory: MACH_SEND_NO_BUFFER, MACH_RCV_BODY_ERROR | MACH_MSG_IPC_KERNEL, and of any other call
 * KERN_RESOURCE_SHORTAGE. Nothing changes where calls are kept already. Without this a kernel keeps none.
 * GELVONDS_NO_KERNEL: the handle holds no kernel. */
gelvonds_code gelvonds_keep_entries(gelvonds *kernel);

/* The line that the history begins with, "mach-history N" with the number of the kernel's profile, with its line
 * feed and no 0. *length is its length in bytes, also where GELVONDS_TOO_SHORT comes: the room is less than that, and
 * no text was written. GELVONDS_NO_KERNEL: the handle holds no kernel. */
gelvonds_code gelvonds_heading(gelvonds *kernel, uint8_t *text, size_t room, size_t *length);

/* The line of the last call, of the caller with this number, with its line feed and no 0. *length as of
 * gelvonds_heading. The line may be asked for again. A program numbers its callers as it likes.
 * GELVONDS_NO_KERNEL: the handle holds no kernel; GELVONDS_NO_ENTRY: calls aren't kept, none was made since they are, or
 * the last one wasn't made; KERN_RESOURCE_SHORTAGE: memory for the text, and the line is still kept. */
gelvonds_code gelvonds_entry(gelvonds *kernel, uint64_t caller, uint8_t *text, size_t room, size_t *length);

/* Judges the whole text of a history, by a kernel of its own that makes the calls anew:
 *   GELVONDS_LEGAL          its calls and replies are a run of the machine, to the last line; number: how many calls
 *   GELVONDS_BAD_LINE       no history has the line of this number there, or it has no line feed
 *   GELVONDS_NOT_CONFIRMED  the call of this number, from 1, is the first that this kernel answers otherwise.
 *                           docs/FORMATS.md says which legal histories come out so
 * It uses no handle, and may be called at any time, by any thread.
 * KERN_RESOURCE_SHORTAGE: memory. That is no verdict, and nothing is written. */
gelvonds_code gelvonds_check(const uint8_t *text, size_t length, gelvonds_verdict *verdict);

/* ---- texts ----
 * Each writes its text and a 0 behind it, and returns the text's length in bytes, without the 0. Where the room is
 * too short for both, nothing is written: the room is compared with what is returned, which is less than
 * GELVONDS_TEXT_ROOM. They use no kernel, and may be called at any time, by any thread. */

/* Room for each of these texts, with its 0. */
#define GELVONDS_TEXT_ROOM 40u

/* The name of a code as this header has it, such as KERN_INVALID_NAME. The code 0 is KERN_SUCCESS.
 * MACH_RCV_BODY_ERROR comes with its other part, as MACH_RCV_BODY_ERROR|MACH_MSG_IPC_SPACE. A number that is no code
 * has the empty name, so 0 is returned. */
size_t gelvonds_code_name(gelvonds_code code, char *name, size_t room);

/* The version of the library that is linked or loaded, to be compared with GELVONDS_VERSION. */
size_t gelvonds_version(char *version, size_t room);

/* ---- tasks: Task Interface ---- */

/* task_create: makes a task with no names.
 * KERN_NO_SPACE: 65,536 tasks were made; KERN_RESOURCE_SHORTAGE: memory. */
gelvonds_code gelvonds_task_create(gelvonds *kernel, gelvonds_task *child);

/* task_terminate: ends the task, with all its names: its ports die, or are sent away with a notice, and its
 * other rights are lost. Its number isn't used again. Takes no memory, and has no code of its own. */
gelvonds_code gelvonds_task_terminate(gelvonds *kernel, gelvonds_task task);

/* ---- names: Port Manipulation Interface ---- */

/* mach_port_allocate: makes a port, of which the task has the receive right (MACH_PORT_RIGHT_RECEIVE), an
 * empty set (.._PORT_SET) or a dead name (.._DEAD_NAME), under a fresh name (gelvonds_make_with_profile).
 * KERN_INVALID_VALUE: another right; KERN_NO_SPACE: a limit; KERN_RESOURCE_SHORTAGE: memory. */
gelvonds_code gelvonds_port_allocate(gelvonds *kernel, gelvonds_task task, uint32_t right, gelvonds_name *name);

/* mach_port_allocate_name: the same, under this name. KERN_INVALID_VALUE: another right, or no name;
 * KERN_NAME_EXISTS: in use; KERN_NO_SPACE: a limit; KERN_RESOURCE_SHORTAGE: memory. */
gelvonds_code gelvonds_port_allocate_name(gelvonds *kernel, gelvonds_task task, uint32_t right, gelvonds_name name);

/* mach_port_deallocate: takes one send reference, one reference of a dead name or a send-once right, whose port
 * is told. KERN_INVALID_NAME: nothing there; KERN_INVALID_RIGHT: a receive right alone, or a set. */
gelvonds_code gelvonds_port_deallocate(gelvonds *kernel, gelvonds_task task, gelvonds_name name);

/* mach_port_destroy: takes all that is under the name. A port that loses its receive right dies, or is sent
 * away with a notice. KERN_INVALID_NAME: nothing there. */
gelvonds_code gelvonds_port_destroy(gelvonds *kernel, gelvonds_task task, gelvonds_name name);

/* mach_port_mod_refs: changes the references of the right by so many. KERN_INVALID_VALUE: no right, fewer than
 * 0 references, or another change than 0 or -1 of a right without references; KERN_INVALID_NAME: nothing there;
 * KERN_INVALID_RIGHT: no such right there; KERN_UREFS_OVERFLOW: more than 65,535 references; KERN_NO_SPACE: a
 * limit of rights. A port that loses its receive right so dies, or is sent away with a notice. */
gelvonds_code gelvonds_port_mod_refs(gelvonds *kernel, gelvonds_task task, gelvonds_name name, uint32_t right, int32_t delta);

/* mach_port_get_refs: how many references of the right are there.
 * KERN_INVALID_VALUE: no right; KERN_INVALID_NAME: nothing there. */
gelvonds_code gelvonds_port_get_refs(gelvonds *kernel, gelvonds_task task, gelvonds_name name, uint32_t right, uint32_t *refs);

/* mach_port_type: which rights are under the name, as the sum of MACH_PORT_TYPE_.. KERN_INVALID_NAME: none. */
gelvonds_code gelvonds_port_type(gelvonds *kernel, gelvonds_task task, gelvonds_name name, uint32_t *type);

/* mach_port_rename: what is under the old name is under the new one. KERN_INVALID_VALUE: the new one is no
 * name; KERN_INVALID_NAME: nothing under the old one; KERN_NAME_EXISTS: the new one is in use;
 * KERN_RESOURCE_SHORTAGE: memory. */
gelvonds_code gelvonds_port_rename(gelvonds *kernel, gelvonds_task task, gelvonds_name old_name, gelvonds_name new_name);

/* mach_port_names: all names of the task, rising, with their types at the same places. *count is how many they
 * are, also where GELVONDS_TOO_SHORT comes: an array has less room than that, and nothing was written to
 * either. KERN_RESOURCE_SHORTAGE: memory. */
gelvonds_code gelvonds_port_names(gelvonds *kernel, gelvonds_task task, gelvonds_name *names, size_t names_room,
                                  uint32_t *types, size_t types_room, size_t *count);

/* ---- the receive right: Port Manipulation Interface ----
 * All four: KERN_INVALID_NAME: nothing under the name; KERN_INVALID_RIGHT: no receive right. */

/* mach_port_get_receive_status. */
gelvonds_code gelvonds_port_get_receive_status(gelvonds *kernel, gelvonds_task task, gelvonds_name name, gelvonds_status *status);

/* mach_port_set_qlimit: how many messages the queue takes by send rights. KERN_INVALID_VALUE: more than 16. */
gelvonds_code gelvonds_port_set_qlimit(gelvonds *kernel, gelvonds_task task, gelvonds_name name, uint32_t limit);

/* mach_port_set_mscount: the make-send count. */
gelvonds_code gelvonds_port_set_mscount(gelvonds *kernel, gelvonds_task task, gelvonds_name name, uint32_t count);

/* mach_port_set_seqno: the sequence number of the next message received. */
gelvonds_code gelvonds_port_set_seqno(gelvonds *kernel, gelvonds_task task, gelvonds_name name, uint32_t number);

/* ---- port sets: Port Manipulation Interface ---- */

/* mach_port_move_member: the port leaves all its sets, and goes into this one unless after is 0.
 * KERN_INVALID_NAME: nothing under a name; KERN_INVALID_RIGHT: no receive right, or no set;
 * KERN_NOT_IN_SET: after is 0, and the port is in no set. */
gelvonds_code gelvonds_port_move_member(gelvonds *kernel, gelvonds_task task, gelvonds_name member, gelvonds_name after);

/* mach_port_insert_member of later Machs: the port goes into the set too, beside the sets that it is in.
 * KERN_INVALID_ARGUMENT: the kernel's profile isn't 3, so a port is in one set at most; KERN_INVALID_NAME: nothing
 * under a name; KERN_INVALID_RIGHT: no receive right, or no set; KERN_ALREADY_IN_SET: it is in the set;
 * KERN_RESOURCE_SHORTAGE: memory, which only a port that is in a set already takes. */
gelvonds_code gelvonds_port_insert_member(gelvonds *kernel, gelvonds_task task, gelvonds_name member, gelvonds_name set);

/* mach_port_extract_member of later Machs: the port leaves the set, and stays in its others.
 * KERN_INVALID_ARGUMENT: the kernel's profile isn't 3; KERN_INVALID_NAME: nothing under a name;
 * KERN_INVALID_RIGHT: no receive right, or no set; KERN_NOT_IN_SET: it isn't in the set. */
gelvonds_code gelvonds_port_extract_member(gelvonds *kernel, gelvonds_task task, gelvonds_name member, gelvonds_name set);

/* mach_port_get_set_status: the task's names of the members, rising. *count as of gelvonds_port_names.
 * KERN_INVALID_NAME: nothing there; KERN_INVALID_RIGHT: no set; KERN_RESOURCE_SHORTAGE: memory;
 * GELVONDS_TOO_SHORT: more members than room. */
gelvonds_code gelvonds_port_get_set_status(gelvonds *kernel, gelvonds_task task, gelvonds_name name,
                                           gelvonds_name *members, size_t room, size_t *count);

/* ---- rights from task to task: Port Manipulation Interface ---- */

/* mach_port_insert_right: copies in what the task `from` has under poly, by the disposition (MACH_MSG_TYPE_..),
 * and puts it under the name in the task. KERN_INVALID_VALUE: no name, or no disposition;
 * KERN_INVALID_CAPABILITY: poly is no name, or dead; KERN_INVALID_NAME: nothing under poly;
 * KERN_INVALID_RIGHT: it lacks what the disposition needs; KERN_RIGHT_EXISTS, KERN_NAME_EXISTS,
 * KERN_UREFS_OVERFLOW, KERN_NO_SPACE: it doesn't fit under the name; KERN_RESOURCE_SHORTAGE: memory. */
gelvonds_code gelvonds_port_insert_right(gelvonds *kernel, gelvonds_task task, gelvonds_name name,
                                         gelvonds_task from, gelvonds_name poly, uint32_t disposition);

/* mach_port_extract_right: takes by the disposition what the task has under the name, and gives it to the task
 * `to`: *poly is its name there, *kind MACH_MSG_TYPE_MOVE_.. of the right. KERN_INVALID_VALUE: no disposition;
 * KERN_INVALID_NAME: nothing there; KERN_INVALID_RIGHT: it lacks what the disposition needs; KERN_NO_SPACE: a
 * limit; KERN_RESOURCE_SHORTAGE: memory. */
gelvonds_code gelvonds_port_extract_right(gelvonds *kernel, gelvonds_task task, gelvonds_name name, uint32_t disposition,
                                          gelvonds_task to, gelvonds_name *poly, uint32_t *kind);

/* ---- notices: Port Manipulation Interface; docs/FORMATS.md has their bytes ----
 * A notice is received as any message: one of 24 bytes with the id MACH_NOTIFY_SEND_ONCE, or of 32 bytes, at whose
 * offset 28 stands the name that died or was deleted, that of the receive right, or the make-send count. */

/* mach_port_request_notification: asks for a notice about the name, of a variant MACH_NOTIFY_..:
 *   PORT_DESTROYED  its port is sent in the notice where its receive right goes in another way than by moving;
 *   NO_SENDERS      its port's last send right goes; at once where there is none and the make-send count is at
 *                   least sync;
 *   DEAD_NAME       its port dies, and the name becomes dead, with one reference more; of a name that is dead
 *                   already at once where sync isn't 0. Where the name goes first, PORT_DELETED comes.
 * The notice goes by the send-once right that notify gives by MACH_MSG_TYPE_MOVE_SEND_ONCE or
 * .._MAKE_SEND_ONCE; where notify is 0 the request is taken away. *previous is the name of the right that was
 * kept for it before: 0 for none, 0xffffffff where its port is dead.
 * KERN_INVALID_VALUE: another variant or disposition, or PORT_DESTROYED with a sync;
 * KERN_INVALID_CAPABILITY: notify gives no right; KERN_INVALID_NAME: nothing under the name;
 * KERN_INVALID_RIGHT: no receive right, or (DEAD_NAME) a set; KERN_INVALID_ARGUMENT: a dead name, and sync or
 * notify is 0; KERN_UREFS_OVERFLOW: a dead name of 65,535 references; KERN_NO_SPACE: a limit of names or
 * rights; KERN_RESOURCE_SHORTAGE: memory. */
gelvonds_code gelvonds_port_request_notification(gelvonds *kernel, gelvonds_task task, gelvonds_name name,
                                                 uint32_t variant, uint32_t sync, gelvonds_name notify,
                                                 uint32_t disposition, gelvonds_name *previous);

/* ---- messages: IPC Interface; docs/FORMATS.md has their bytes ----
 * Six words, of which the lowest byte comes first on every machine, and a body of a multiple of 4 bytes:
 *       as it is sent                                as it is received
 *    0  MACH_MSGH_BITS(the destination's             MACH_MSGH_BITS(kind of the reply right, kind of
 *       disposition, the reply's or 0)               the right that it was sent to)
 *    4  not read                                     its length
 *    8  the sender's name of the destination         the receiver's name of the reply right; 0 for none,
 *                                                    MACH_PORT_DEAD where its port has died
 *   12  its name of the reply's right, or 0          its name of the port that it came to
 *   16  not read                                     its number at that port
 *   20  the id                                       as sent
 *   24  the body                                     as sent, except for names in items
 * The body is raw bytes, or, with MACH_MSGH_BITS_COMPLEX in the first word, a list of items, in which rights go. To
 * answer: the low 8 bits of the first word received are the disposition, the word at 8 is the destination. */

/* mach_msg with MACH_SEND_MSG, that doesn't wait: the message joins the end of its destination's queue, or a
 * MACH_SEND_.. code comes: MSG_TOO_SMALL (fewer than 24 bytes, no multiple of 4, or an item past the end),
 * INVALID_DATA (more than 65,536 bytes), INVALID_HEADER (the first word, or a reply without a disposition),
 * INVALID_TYPE (an item), INVALID_DEST, INVALID_REPLY, INVALID_RIGHT (the name of the destination, of the reply, or
 * one in the body, lacks what its disposition needs; or a loop of ports in one another's queues), TIMED_OUT (the
 * queue is full), NO_BUFFER (memory). The bytes are copied. */
gelvonds_code gelvonds_send(gelvonds *kernel, gelvonds_task task, const uint8_t *bytes, size_t length);

/* mach_msg with MACH_RCV_MSG, that doesn't wait: the front message of the port, or of any member of the set,
 * under the name, into the buffer; *length is its length. large: MACH_RCV_LARGE, whether a message
 * longer than the room is to stay; else it is destroyed, and its rights are lost.
 * MACH_RCV_TOO_LARGE: it is longer; *length is told. MACH_RCV_TIMED_OUT: there is none; *waited is told.
 * MACH_RCV_INVALID_NAME, MACH_RCV_IN_SET: no receive right and no set, or a port that is in a set.
 * MACH_RCV_BODY_ERROR | MACH_MSG_IPC_SPACE, .. | MACH_MSG_IPC_KERNEL: names or memory; the message stays. */
gelvonds_code gelvonds_receive(gelvonds *kernel, gelvonds_task task, gelvonds_name name, uint8_t *buffer, size_t room,
                               bool large, size_t *length, gelvonds_waited *waited);

/* A later try of a receive that answered MACH_RCV_TIMED_OUT: from what *waited says, whatever its name is now.
 * As gelvonds_receive; and MACH_RCV_PORT_DIED: the port or set isn't there; MACH_RCV_PORT_CHANGED: the task
 * hasn't its receive right, or it is in a set; GELVONDS_NO_WAITED: no kind, and no call is made. */
gelvonds_code gelvonds_receive_again(gelvonds *kernel, gelvonds_task task, uint8_t *buffer, size_t room,
                                     bool large, size_t *length, gelvonds_waited *waited);

/* mach_msg, for a caller who can wait: begins the call, and makes its first try. With MACH_SEND_MSG the message is
 * sent. With MACH_RCV_MSG one is received from the name into the buffer, after the send where both are asked for. Each
 * call of gelvonds_msg_begin and gelvonds_msg_next makes one try, and msg->state says what comes next:
 *   GELVONDS_MSG_DONE               nothing: the call has ended with the code that is returned. msg->length is how many
 *                                   bytes were received, or with MACH_RCV_TOO_LARGE are needed; else 0
 *   GELVONDS_MSG_WAITS_FOR_ROOM     the queue of the port msg->waited is full. The code is MACH_SEND_TIMED_OUT
 *   GELVONDS_MSG_WAITS_FOR_MESSAGE  msg->waited has no message. The code is MACH_RCV_TIMED_OUT
 *   GELVONDS_MSG_SENT               the message was sent, and the code is 0: call gelvonds_msg_next at once
 * Where it waits, the caller lets other threads make calls, and then calls gelvonds_msg_next. Or it gives up: the code
 * that was returned last is then that of the call. So the loop of a caller is
 *     code = gelvonds_msg_begin(&kernel, &msg, task, options, bytes, length, buffer, room, name);
 *     while (msg.state != GELVONDS_MSG_DONE) {
 *         if (msg.state != GELVONDS_MSG_SENT)
 *             .. sleep until another call may have ended the wait ..
 *         code = gelvonds_msg_next(&kernel, &msg, bytes, length, buffer, room);
 *     }
 * The tries are those of gelvonds_send, gelvonds_receive and gelvonds_receive_again, whose codes come. MACH_SEND_TIMEOUT
 * and MACH_RCV_TIMEOUT allow one try of their part, and then the call ends with its code. MACH_SEND_INTERRUPT and
 * MACH_RCV_INTERRUPT interrupt nothing. With neither MACH_SEND_MSG nor MACH_RCV_MSG the call ends with the code 0, and no
 * try is made.
 * KERN_INVALID_ARGUMENT: an option that isn't among the seven, such as MACH_SEND_NOTIFY; the call has ended, and no try
 * is made. The bytes and the buffer are two places, also where both are asked for. */
gelvonds_code gelvonds_msg_begin(gelvonds *kernel, gelvonds_msg *msg, gelvonds_task task, uint32_t options,
                                 const uint8_t *bytes, size_t length, uint8_t *buffer, size_t room, gelvonds_name name);

/* Goes on with a message call that hasn't ended: makes one more try, with the same bytes and the same buffer. The bytes
 * are read only where it waits for room.
 * GELVONDS_NO_MSG: msg has no try to come, since it has ended, or holds a state, a kind or an option that is none; no
 * try is made, and msg->state is GELVONDS_MSG_DONE. */
gelvonds_code gelvonds_msg_next(gelvonds *kernel, gelvonds_msg *msg, const uint8_t *bytes, size_t length,
                                uint8_t *buffer, size_t room);

#ifdef __cplusplus
}
#endif

#endif
