/* Out-of-line data, where GELVONDS_OUT_OF_LINE=inline asks for it. The kernel has none. So it goes inline, behind a
 * marker, in a copy of the message. outline.c has what the receiver does. */
#include "layer.h"

#include <stdlib.h>
#include <string.h>

bool gm_out_of_line;

/* A message with all data inline, and the bytes that the caller gave. */
typedef struct gm_copy {
    size_t length; /* of what is sent */
    size_t size;   /* of what was given */
    bool full;     /* a message can't be so long */
    union {
        mach_msg_header_t head;
        char bytes[GM_LONGEST];
    } sent;
    char given[];
} gm_copy;

void gm_read_out_of_line(void)
{
    const char *const value = getenv("GELVONDS_OUT_OF_LINE");
    if (value == NULL || *value == 0)
        return;
    gm_out_of_line = strcmp(value, "inline") == 0;
    if (!gm_out_of_line)
        fprintf(stderr, "gelvonds: GELVONDS_OUT_OF_LINE=%s is ignored: it can only be inline\n", value);
}

/* Adds so many bytes, and zeros up to a multiple of 4. */
static void put(gm_copy *copy, const void *from, uint64_t bytes)
{
    const size_t padding = (size_t)((4 - bytes % 4) % 4);
    copy->full |= bytes > GM_LONGEST - copy->length;
    if (copy->full)
        return;
    if (bytes != 0)
        memcpy(copy->sent.bytes + copy->length, from, (size_t)bytes);
    memset(copy->sent.bytes + copy->length + bytes, 0, padding);
    copy->length += (size_t)bytes + padding;
}

static void put_item(gm_copy *copy, const char *at, const gm_item *item)
{
    char front[GM_MARKER_BYTES + sizeof(mach_msg_type_long_t)];
    if (item->is_inline) {
        put(copy, at, item->whole);
        return;
    }
    gm_write_marker(front);
    memcpy(front + GM_MARKER_BYTES, at, item->head);
    gm_set_inline(front + GM_MARKER_BYTES, true);
    put(copy, front, GM_MARKER_BYTES + item->head);
    put(copy, gm_item_data(at, item), item->bytes);
}

/* Makes what is sent of what was given. What can't be read is for the kernel to judge. */
static void put_message(gm_copy *copy)
{
    const char *at = copy->given + sizeof(mach_msg_header_t);
    size_t left = copy->size - sizeof(mach_msg_header_t);
    gm_item item;
    put(copy, copy->given, sizeof(mach_msg_header_t));
    for (; gm_read_item(at, left, &item); at += item.whole, left -= item.whole)
        put_item(copy, at, &item);
    put(copy, at, left);
}

/* Whether an item of the message has its data out of line. One that is too long, or too short, is the kernel's to judge. */
static bool has_out_of_line(const mach_msg_header_t *msg, size_t size)
{
    const char *at = (const char *)(msg + 1);
    size_t left;
    gm_item item;
    if (size < sizeof *msg || size > GM_LONGEST || size % 4 != 0 || (msg->msgh_bits & MACH_MSGH_BITS_COMPLEX) == 0)
        return false;
    left = size - sizeof *msg;
    for (; gm_read_item(at, left, &item); at += item.whole, left -= item.whole)
        if (!item.is_inline)
            return true;
    return false;
}

mach_msg_return_t gm_prepare_out_of_line(gm_message_call *call)
{
    gm_copy *copy;
    call->takes_longer = (call->option & MACH_RCV_LARGE) == 0;
    call->option |= MACH_RCV_LARGE;
    call->copy = NULL;
    call->lost = NULL;
    if ((call->option & MACH_SEND_MSG) == 0 || !has_out_of_line(call->buffer, call->send_size))
        return MACH_MSG_SUCCESS;
    copy = malloc(sizeof *copy + call->send_size);
    if (copy == NULL)
        return MACH_SEND_NO_BUFFER;
    copy->length = 0;
    copy->size = call->send_size;
    copy->full = false;
    memcpy(copy->given, call->buffer, copy->size);
    put_message(copy);
    call->copy = copy;
    if (copy->full)
        return MACH_SEND_INVALID_DATA;
    call->given = call->buffer;
    call->buffer = &copy->sent.head;
    call->send_size = (mach_msg_size_t)copy->length;
    return MACH_MSG_SUCCESS;
}

void gm_is_sent(gm_message_call *call)
{
    gm_copy *const copy = call->copy;
    const char *at;
    size_t left;
    gm_item item;
    if (copy == NULL)
        return;
    at = copy->given + sizeof(mach_msg_header_t);
    left = copy->size - sizeof(mach_msg_header_t);
    for (; gm_read_item(at, left, &item); at += item.whole, left -= item.whole)
        gm_free_item(at, &item);
    call->buffer = call->given;
    call->copy = NULL;
    free(copy);
}

void gm_finish_out_of_line(gm_message_call *call)
{
    free(call->copy);
    if (call->lost == NULL)
        return;
    mach_msg_destroy(call->lost);
    free(call->lost);
}
