/* Inside the layer alone: one kernel, one lock, the calling thread, and what each file gives the others.
 *
 * Every call of the kernel is made with the lock held, and is written to the history in that order. What a call
 * does and returns is the kernel's. The layer says which task a thread belongs to, which waiting threads are woken,
 * and when a thread that waits gives up. */
#ifndef GM_LAYER_H
#define GM_LAYER_H

#ifndef _DEFAULT_SOURCE
#define _DEFAULT_SOURCE 1
#endif

#include <mach/gelvonds.h>
#include <mach/mach.h>

#include <gelvonds.h>

#include <pthread.h>
#include <stdbool.h>
#include <stdio.h>
#include <time.h>

/* ---- items.c: the items of a message ---- */

enum { GM_LONGEST = 65536 }; /* the most bytes of a message */

typedef struct gm_item {
    mach_msg_type_name_t type;
    uint64_t bytes;   /* of its data */
    size_t head;      /* bytes before its data, or before the address of that */
    size_t whole;     /* bytes that it takes in the message */
    bool is_inline, deallocates;
} gm_item;

/* Reads the head of the item at the front; false where the message ends before it does. */
bool gm_read_item(const char *at, size_t left, gm_item *found);
/* Its data, which may be out of line. */
const char *gm_item_data(const char *at, const gm_item *item);
/* Gives back its memory, where its data is out of line and its head says that the memory goes with it. */
void gm_free_item(const char *at, const gm_item *item);
/* Says in an item's head whether its data is inline. If it isn't, the memory goes with it. */
void gm_set_inline(char *head, bool is_inline);

/* The marker before an item that was sent out of line: two items without elements, which are plain data for the kernel,
 * of a type that is the layer's. It takes as many bytes as the longest address. */
enum { GM_MARKER_BYTES = 8 };
void gm_write_marker(char *to);

/* ---- tries.c: mach_msg, one try a call ---- */

enum gm_next { GM_DONE, GM_WAITS_FOR_ROOM, GM_SENT, GM_WAITS_FOR_MESSAGE };

/* A message call. The buffer has the message that is sent, and then the one that is received. */
typedef struct gm_message_call {
    mach_msg_header_t *buffer;
    mach_msg_size_t send_size;
    mach_msg_size_t room;
    mach_port_name_t name;    /* what is received from */
    mach_msg_option_t option;
    mach_msg_timeout_t timeout; /* milliseconds, where the option has a timeout */
    enum gm_next next;
    size_t length;            /* of the message received, or of one that is too long */
    gelvonds_waited on;       /* what it waits for */
    /* .. and where data goes out of line, else none of these is set */
    struct gm_copy *copy;     /* of a message with data out of line, while it is sent; else NULL */
    mach_msg_header_t *given; /* the caller's buffer, while buffer is the copy */
    bool takes_longer;        /* MACH_RCV_LARGE isn't the caller's */
    mach_msg_header_t *lost;  /* a message that didn't fit, to be given up; or NULL */
} gm_message_call;

/* One call of the kernel to receive, with its entry in the history. */
typedef mach_msg_return_t gm_receipt(gm_message_call *call);

/* Makes the call's first try, or its next. Returns the code of the try, and says in `next` whether the call has ended. */
mach_msg_return_t gm_first_try(gm_message_call *call);
mach_msg_return_t gm_next_try(gm_message_call *call);

/* ---- ool.c and outline.c: data out of line, where the program asks for it ---- */

extern bool gm_out_of_line; /* it does */

/* Reads GELVONDS_OUT_OF_LINE. */
void gm_read_out_of_line(void);

/* The rest is called where gm_out_of_line is true. */

/* Makes a copy to send of a message that has data out of line.
 * MACH_SEND_INVALID_DATA: it is too long; MACH_SEND_NO_BUFFER: out of memory. */
mach_msg_return_t gm_prepare_out_of_line(gm_message_call *call);
/* The message is queued: ends its copy, if there is one, and gives up the memory that went with it. */
void gm_is_sent(gm_message_call *call);
/* Receives. What came marked is out of line in the caller's buffer.
 * MACH_RCV_BODY_ERROR | MACH_MSG_VM_SPACE: out of memory, and the message stays. */
mach_msg_return_t gm_receive_outlined(gm_message_call *call, gm_receipt *receive);
/* Ends the call, without the lock: gives up a message that didn't fit. */
void gm_finish_out_of_line(gm_message_call *call);

/* ---- waiting.c: the threads that wait ---- */

/* A thread that waits. It stays in its line until it leaves, woken or not, so it keeps its place. */
typedef struct gm_waiter {
    struct gm_waiter *next, *previous;         /* in its line: those that wait for the same, in order of arrival */
    struct gm_waiter *next_all, *previous_all; /* among all senders, or all receivers */
    pthread_cond_t condition;
    gm_message_call *call;
    gelvonds_task task;
    gelvonds_waited on;
    bool sends;                                /* it waits for a place in a queue; else for a message */
    bool woken;                                /* since its last try */
} gm_waiter;

/* What a call of the kernel may have made possible for those that wait on what it touched. */
enum gm_step {
    GM_ASKED,    /* nothing */
    GM_SENDS,    /* one message more */
    GM_RECEIVES, /* one place more */
    GM_CHANGES   /* anything */
};

extern gelvonds_mach_counts_t gm_counts;

/* Wakes those whom the last call of the kernel concerns. */
void gm_wake_touched(enum gm_step step);
static inline void gm_wake(enum gm_step step)
{
    if ((gm_counts.waiting_senders | gm_counts.waiting_receivers) != 0)
        gm_wake_touched(step);
}
/* Wakes all threads of a task that wait; or those that wait for a place, since a name that they use may be another's. */
void gm_wake_task(gelvonds_task task);
void gm_wake_senders_of(gelvonds_task task);

/* Enters the calling thread at the end of the line of what its call waits for. */
void gm_line_up(gm_waiter *waiter, gm_message_call *call);
/* Takes it out. One that was woken, and leaves without the message or the place, wakes the next. */
void gm_leave(gm_waiter *waiter, bool without);
/* Waits until the thread is woken, and returns true; or until then, and returns false. NULL: for good. A thread that is
 * cancelled here leaves its line, wakes the next and gives up the lock. */
bool gm_sleep(gm_waiter *waiter, const struct timespec *until);

/* ---- probes.c: in a test build, whether one waits that could go on ---- */

#ifdef GELVONDS_MACH_TEST
/* Makes a try for each thread that waits. One that would go on, though neither it nor another in its line was woken,
 * ends the program by abort. */
void gm_probe(void);
gm_waiter *gm_first_waiter(bool sends);
bool gm_has_woken(const gm_waiter *like);
#else
static inline void gm_probe(void) {}
#endif

/* ---- kernel.c: the kernel, the lock, the calling thread ---- */

typedef struct gm_thread {
    bool entered;              /* it has a task and a number */
    bool can_wait;             /* its waiter's condition was made */
    bool has_task;             /* it was started in a task */
    gelvonds_task task;
    uint64_t caller;           /* its number in the history */
    mach_port_t reply_port;    /* of MIG's stubs, or 0 */
    gm_waiter waiter;
} gm_thread;

extern _Thread_local gm_thread gm_self;
extern gelvonds gm_kernel;
extern pthread_mutex_t gm_mutex;

/* Begins a call: takes the lock, at the thread's first call after it has got its task. With another code than 0 the
 * lock isn't held: KERN_RESOURCE_SHORTAGE, KERN_NO_SPACE; KERN_INVALID_TASK in a child of fork. */
kern_return_t gm_begin_first(void);
static inline kern_return_t gm_begin(void)
{
    if (!gm_self.entered)
        return gm_begin_first();
    pthread_mutex_lock(&gm_mutex);
    return KERN_SUCCESS;
}
/* Wakes whom the call concerns, gives up the lock, and returns the code. */
kern_return_t gm_end(kern_return_t code, enum gm_step step);

/* The kernel's number of a task, and back. What is no task gets a number that no task has. */
static inline gelvonds_task gm_number(task_t task) { return task ^ 0x80000000u; }
static inline task_t gm_task_of(gelvonds_task number) { return number ^ 0x80000000u; }

/* ---- history.c ---- */

extern FILE *gm_history; /* or NULL */

/* Begins the history that GELVONDS_HISTORY names, if it does; and ends it. */
void gm_open_history(void);
void gm_close_history(void);
void gm_flush_history(void);

/* Writes the entry of a call: its line by the format, and a reply. Nothing where there is no history. */
void gm_record_code(kern_return_t code, const char *format, ...) __attribute__((format(printf, 2, 3)));
/* .. whose reply is this word and number where the code is 0 (else nothing is at the pointer), .. */
void gm_record_number(kern_return_t code, const char *word, const uint32_t *number, const char *format, ...)
    __attribute__((format(printf, 4, 5)));
/* .. or a list of names, with their types where there are some. */
void gm_record_names(kern_return_t code, const gelvonds_name *names, const uint32_t *types, size_t count,
                     const char *format, ...) __attribute__((format(printf, 5, 6)));
void gm_record_status(kern_return_t code, const gelvonds_status *status, gelvonds_task task, mach_port_name_t name);
void gm_record_right(kern_return_t code, const mach_port_name_t *name, const uint32_t *kind, const char *format, ...)
    __attribute__((format(printf, 4, 5)));
void gm_record_send(kern_return_t code, gelvonds_task task, const void *bytes, size_t length);
/* The entry of a receipt by the call, of which waited says what a later try receives from, or NULL. */
void gm_record_receipt(kern_return_t code, const gm_message_call *call, gelvonds_task task,
                       const gelvonds_waited *again);

/* ---- bootstrap.c: with the lock held ---- */

/* The child has its maker's bootstrap port. KERN_RESOURCE_SHORTAGE: out of memory, and it has none. */
kern_return_t gm_inherit_bootstrap(gelvonds_task maker, gelvonds_task child);
/* The task has ended, or gets another one. */
void gm_drop_bootstrap(gelvonds_task task);

#endif
