/* Out-of-line data where memory is refused: nothing is lost, and the next call works. The program has the layer's memory.c
 * and malloc of its own, which refuse when they are told to. (Sanitizers and valgrind put their malloc before it: then
 * only pages are refused.) */
#define _DEFAULT_SOURCE 1
#include "check.h"

#include <sys/mman.h>

#ifdef __has_feature
#if __has_feature(address_sanitizer) || __has_feature(thread_sanitizer)
#define OTHER_MALLOC
#endif
#endif
#if defined(__SANITIZE_ADDRESS__) || defined(__SANITIZE_THREAD__)
#define OTHER_MALLOC
#endif

enum { LONG = 65536, DATA = 10000 };

static bool refuses_pages;
static volatile bool refuses_malloc; /* (the compiler takes malloc for one that reads nothing) */

#ifndef OTHER_MALLOC
extern void *__libc_malloc(size_t size);
void *malloc(size_t size)
{
    return refuses_malloc && size >= LONG ? NULL : __libc_malloc(size);
}
#endif

kern_return_t vm_allocate(task_t target_task, vm_address_t *address, vm_size_t size, boolean_t anywhere)
{
    void *const found = refuses_pages ? MAP_FAILED
                                      : mmap(NULL, size, PROT_READ | PROT_WRITE, MAP_PRIVATE | MAP_ANONYMOUS, -1, 0);
    (void)target_task;
    (void)anywhere;
    *address = (vm_address_t)found;
    return found == MAP_FAILED ? KERN_RESOURCE_SHORTAGE : KERN_SUCCESS;
}

kern_return_t vm_deallocate(task_t target_task, vm_address_t address, vm_size_t size)
{
    (void)target_task;
    return size == 0 || munmap((void *)address, size) == 0 ? KERN_SUCCESS : KERN_INVALID_ARGUMENT;
}

void mig_allocate(vm_address_t *address, vm_size_t size) { vm_allocate(TASK_NULL, address, size, TRUE); }
void mig_deallocate(vm_address_t address, vm_size_t size) { vm_deallocate(TASK_NULL, address, size); }

/* Whether this program's malloc is the one that is called. */
static bool has_malloc(void)
{
    void *volatile found;
    refuses_malloc = true;
    found = malloc(LONG);
    refuses_malloc = false;
    free(found);
    return found == NULL;
}

#pragma pack(push, 4)
typedef struct {
    mach_msg_header_t head;
    mach_msg_type_long_t type;
    char *data;
} data_message;
#pragma pack(pop)

static mach_msg_return_t send_data(mach_port_t to, char *data, bool deallocate)
{
    data_message message;
    memset(&message, 0, sizeof message);
    message.head.msgh_bits = MACH_MSGH_BITS_COMPLEX | MACH_MSGH_BITS(MACH_MSG_TYPE_COPY_SEND, 0);
    message.head.msgh_remote_port = to;
    message.type.msgtl_header.msgt_longform = TRUE;
    message.type.msgtl_header.msgt_deallocate = deallocate;
    message.type.msgtl_name = MACH_MSG_TYPE_CHAR;
    message.type.msgtl_size = 8;
    message.type.msgtl_number = DATA;
    message.data = data;
    return mach_msg(&message.head, MACH_SEND_MSG, sizeof message, 0, MACH_PORT_NULL, 0, MACH_PORT_NULL);
}

static mach_msg_return_t receive_data(mach_port_t from, data_message *message)
{
    return mach_msg(&message->head, MACH_RCV_MSG | MACH_RCV_TIMEOUT, 0, sizeof *message, from, 0, MACH_PORT_NULL);
}

static void takes_it(mach_port_t from)
{
    data_message message;
    MUST(receive_data(from, &message));
    IS(message.data[0], 'a');
    IS(message.data[DATA - 1], 'z');
    MUST(vm_deallocate(mach_task_self(), (vm_address_t)message.data, DATA));
}

/* At the first receive, and once there are pages for short messages alone. */
static void test_pages(mach_port_t port, char *data)
{
    static mach_msg_header_t longest[LONG / sizeof(mach_msg_header_t)];
    data_message message;
    number_message number;
    MUST(send_data(port, data, false));
    refuses_pages = true;
    WANT(receive_data(port, &message), MACH_RCV_BODY_ERROR | MACH_MSG_VM_SPACE);
    WANT(mach_msg(longest, MACH_RCV_MSG, 0, sizeof longest, port, 0, MACH_PORT_NULL),
         MACH_RCV_BODY_ERROR | MACH_MSG_VM_SPACE);
    refuses_pages = false;
    MUST(send_number(port, 5, MACH_PORT_NULL, 0, 0));
    takes_it(port);
    MUST(send_data(port, data, false));
    MUST(receive_number(port, &number, 0, 0));
    IS(number.number, 5);
    takes_it(port);
    IS(strcmp(mach_error_string(MACH_RCV_BODY_ERROR | MACH_MSG_VM_SPACE), "MACH_RCV_BODY_ERROR|MACH_MSG_VM_SPACE"), 0);
}

static void test_copies(mach_port_t port, char *data)
{
    data_message message;
    MUST(send_data(port, data, false));
    refuses_malloc = true;
    WANT(send_data(port, data, true), MACH_SEND_NO_BUFFER);
    WANT(receive_data(port, &message), MACH_RCV_BODY_ERROR | MACH_MSG_VM_SPACE);
    refuses_malloc = false;
    IS(data[DATA - 1], 'z');
    takes_it(port);
    WANT(receive_data(port, &message), MACH_RCV_TIMED_OUT);
    MUST(send_data(port, data, true));
    takes_it(port);
}

int main(void)
{
    const mach_port_t port = new_port();
    vm_address_t at;
    char *data;
    MUST(vm_allocate(mach_task_self(), &at, DATA, TRUE));
    data = (char *)at;
    data[0] = 'a';
    data[DATA - 1] = 'z';
    test_pages(port, data);
    if (has_malloc())
        test_copies(port, data);
    else
        MUST(vm_deallocate(mach_task_self(), at, DATA));
    MUST(mach_port_destroy(mach_task_self(), port));
    return ends();
}
