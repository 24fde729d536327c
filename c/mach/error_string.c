/* mach_error_string: the names of the library's codes, and of MIG's. */
#include "layer.h"

#include <string.h>

static const struct {
    kern_return_t code;
    const char *name;
} others[] = {
    { KERN_FAILURE, "KERN_FAILURE" },
    { MACH_RCV_BODY_ERROR | MACH_MSG_VM_SPACE, "MACH_RCV_BODY_ERROR|MACH_MSG_VM_SPACE" },
    { MIG_TYPE_ERROR, "MIG_TYPE_ERROR" },
    { MIG_REPLY_MISMATCH, "MIG_REPLY_MISMATCH" },
    { MIG_REMOTE_ERROR, "MIG_REMOTE_ERROR" },
    { MIG_BAD_ID, "MIG_BAD_ID" },
    { MIG_BAD_ARGUMENTS, "MIG_BAD_ARGUMENTS" },
    { MIG_NO_REPLY, "MIG_NO_REPLY" },
    { MIG_EXCEPTION, "MIG_EXCEPTION" },
    { MIG_ARRAY_TOO_LARGE, "MIG_ARRAY_TOO_LARGE" },
    { MIG_SERVER_DIED, "MIG_SERVER_DIED" },
    { MIG_DESTROY_REQUEST, "MIG_DESTROY_REQUEST" },
};

char *mach_error_string(mach_error_t error_value)
{
    static _Thread_local char name[GELVONDS_TEXT_ROOM];
    if (gelvonds_code_name(error_value, name, sizeof name) != 0)
        return name;
    strcpy(name, "unknown code");
    for (size_t i = 0; i < sizeof others / sizeof *others; i++)
        if (others[i].code == error_value)
            strcpy(name, others[i].name);
    return name;
}
