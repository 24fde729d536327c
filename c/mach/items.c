/* The items of a message's body, read one by one. No byte behind the message is looked at. */
#include "layer.h"

#include <string.h>

enum { MARKER = 254 }; /* a type that no item has but a marker's */

/* A multiple of 4 bytes, as each item of a message has. */
static uint64_t padded(uint64_t bytes)
{
    return (bytes + 3) / 4 * 4;
}

bool gm_read_item(const char *at, size_t left, gm_item *found)
{
    mach_msg_type_t type;
    mach_msg_type_long_t long_type;
    uint64_t number, size, in_message;
    if (left < sizeof type)
        return false;
    memcpy(&type, at, sizeof type);
    found->head = type.msgt_longform ? sizeof long_type : sizeof type;
    if (left < found->head)
        return false;
    found->type = type.msgt_name;
    number = type.msgt_number;
    size = type.msgt_size;
    if (type.msgt_longform) {
        memcpy(&long_type, at, sizeof long_type);
        found->type = long_type.msgtl_name;
        number = long_type.msgtl_number;
        size = long_type.msgtl_size;
    }
    found->bytes = (number * size + 7) / 8;
    found->is_inline = type.msgt_inline;
    found->deallocates = type.msgt_deallocate;
    in_message = found->is_inline ? found->bytes : sizeof(void *);
    if (in_message > left - found->head)
        return false;
    in_message = padded(in_message);
    found->whole = in_message < left - found->head ? found->head + (size_t)in_message : left;
    return true;
}

const char *gm_item_data(const char *at, const gm_item *item)
{
    const char *data = at + item->head;
    if (!item->is_inline)
        memcpy(&data, at + item->head, sizeof data);
    return data;
}

void gm_free_item(const char *at, const gm_item *item)
{
    if (!item->is_inline && item->deallocates)
        vm_deallocate(TASK_NULL, (vm_address_t)gm_item_data(at, item), (vm_size_t)item->bytes);
}

void gm_set_inline(char *head, bool is_inline)
{
    mach_msg_type_t type;
    memcpy(&type, head, sizeof type);
    type.msgt_inline = is_inline;
    type.msgt_deallocate = !is_inline;
    memcpy(head, &type, sizeof type);
}

void gm_write_marker(char *to)
{
    mach_msg_type_t type;
    memset(&type, 0, sizeof type);
    type.msgt_name = MARKER;
    type.msgt_inline = TRUE;
    memcpy(to, &type, sizeof type);
    memcpy(to + sizeof type, &type, sizeof type);
}
