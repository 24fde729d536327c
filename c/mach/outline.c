/* What is received of data that was sent out of line: the items behind a marker get their data in pages of their own.
 *
 * A marker is at least as long as an address. So a message is never longer with its data out of line than without, and
 * its items can be moved where they are. */
#include "layer.h"

#include <stdlib.h>
#include <string.h>
#include <sys/mman.h>
#include <unistd.h>

enum { NO_MEMORY = MACH_RCV_BODY_ERROR | MACH_MSG_VM_SPACE };
enum { LEAST_MARKED = GM_MARKER_BYTES + sizeof(mach_msg_type_t) + 4 }; /* bytes of an item that needs a page */

/* Pages for data that comes. They are there before its message leaves the queue, so that none is lost for them. */
static vm_address_t pages;
static vm_size_t pages_left, page; /* bytes: of them all, and of one */

/* Whether there are pages for all data of a message of so many bytes, or can be made. Each item's data begins a page. */
static bool has_pages(size_t length)
{
    vm_size_t most;
    vm_address_t fresh;
    if (page == 0)
        page = (vm_size_t)sysconf(_SC_PAGESIZE);
    most = (length / page + 1 + length / LEAST_MARKED) * page;
    if (pages_left >= most)
        return true;
    if (vm_allocate(TASK_NULL, &fresh, 2 * most, TRUE) != KERN_SUCCESS)
        return false;
    madvise((void *)fresh, 2 * most, MADV_NOHUGEPAGE); /* (few of them are ever touched) */
    vm_deallocate(TASK_NULL, pages, pages_left);
    pages = fresh;
    pages_left = 2 * most;
    return true;
}

static char *take_pages(size_t bytes)
{
    const vm_size_t whole = (bytes + page - 1) / page * page;
    char *const taken = bytes == 0 ? NULL : (char *)pages;
    pages += whole;
    pages_left -= whole;
    return taken;
}

/* Reads an item, and whether a marker is before it. */
static bool read_received(const char *at, size_t left, gm_item *item, bool *is_marked)
{
    char marker[GM_MARKER_BYTES];
    gm_write_marker(marker);
    *is_marked = left > sizeof marker && memcmp(at, marker, sizeof marker) == 0
                 && gm_read_item(at + sizeof marker, left - sizeof marker, item) && item->is_inline;
    if (*is_marked)
        item->whole += sizeof marker;
    return *is_marked || gm_read_item(at, left, item);
}

/* Moves an item, and its data to pages of its own. Returns what is behind it. */
static char *move_marked(char *to, const char *at, const gm_item *item)
{
    char *const data = take_pages((size_t)item->bytes);
    if (data != NULL)
        memcpy(data, at + item->head, (size_t)item->bytes);
    memmove(to, at, item->head);
    gm_set_inline(to, false);
    memcpy(to + item->head, &data, sizeof data);
    return to + item->head + sizeof data;
}

/* How many bytes a message has once its marked data is out of line: no more than it has. */
static size_t outlined_length(const mach_msg_header_t *msg, size_t length)
{
    const char *at = (const char *)(msg + 1);
    size_t left = length - sizeof *msg, needed = length;
    gm_item item;
    bool is_marked;
    if ((msg->msgh_bits & MACH_MSGH_BITS_COMPLEX) == 0)
        return length;
    for (; read_received(at, left, &item, &is_marked); at += item.whole, left -= item.whole)
        if (is_marked)
            needed -= item.whole - item.head - sizeof(void *);
    return needed;
}

/* Moves a message of items with its marked data out of line, perhaps to where it is. */
static void outline(const mach_msg_header_t *from, size_t length, mach_msg_header_t *to)
{
    const char *at = (const char *)(from + 1);
    char *put_at = (char *)(to + 1);
    size_t left = length - sizeof *from;
    gm_item item;
    bool is_marked;
    memmove(to, from, sizeof *to);
    for (; read_received(at, left, &item, &is_marked); at += item.whole, left -= item.whole) {
        if (is_marked) {
            put_at = move_marked(put_at, at + GM_MARKER_BYTES, &item);
        } else {
            memmove(put_at, at, item.whole);
            put_at += item.whole;
        }
    }
    to->msgh_size = (mach_msg_size_t)(put_at - (char *)to);
}

/* Receives a message that is too long for the caller's buffer into another one. With its data out of line it may fit into
 * the caller's. If it doesn't, it is lost. */
static mach_msg_return_t receive_longer(gm_message_call *call, gm_receipt *receive)
{
    gm_message_call longer = *call;
    mach_msg_return_t code;
    longer.buffer = malloc(GM_LONGEST);
    longer.room = GM_LONGEST;
    if (longer.buffer == NULL || !has_pages(GM_LONGEST)) {
        free(longer.buffer);
        return NO_MEMORY;
    }
    code = receive(&longer);
    if (code == MACH_MSG_SUCCESS) {
        call->length = outlined_length(longer.buffer, longer.length);
        if (call->length > call->room) {
            call->lost = longer.buffer;
            return MACH_RCV_TOO_LARGE;
        }
        outline(longer.buffer, longer.length, call->buffer);
    }
    free(longer.buffer);
    return code;
}

mach_msg_return_t gm_receive_outlined(gm_message_call *call, gm_receipt *receive)
{
    mach_msg_return_t code;
    if (!has_pages(call->room < GM_LONGEST ? call->room : GM_LONGEST))
        return NO_MEMORY;
    code = receive(call);
    if (code == MACH_RCV_TOO_LARGE && call->takes_longer)
        return receive_longer(call, receive);
    if (code == MACH_MSG_SUCCESS && (call->buffer->msgh_bits & MACH_MSGH_BITS_COMPLEX) != 0)
        outline(call->buffer, call->length, call->buffer);
    return code;
}
