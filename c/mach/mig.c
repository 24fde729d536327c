/* What MIG's stubs call: a reply port for each thread, and strings. It is C above the kernel. */
#include "layer.h"

mach_port_t mig_get_reply_port(void)
{
    if (gm_self.reply_port == MACH_PORT_NULL)
        gm_self.reply_port = mach_reply_port();
    return gm_self.reply_port;
}

void mig_put_reply_port(mach_port_t port)
{
    (void)port;
}

/* (A stub passes what is in its buffer, which a reply may have overwritten.) */
void mig_dealloc_reply_port(mach_port_t port)
{
    const mach_port_t own = gm_self.reply_port;
    (void)port;
    gm_self.reply_port = MACH_PORT_NULL;
    if (own != MACH_PORT_NULL)
        mach_port_mod_refs(mach_task_self(), own, MACH_PORT_RIGHT_RECEIVE, -1);
}

vm_size_t mig_strncpy(char *destination, const char *source, vm_size_t length)
{
    vm_size_t used = 0;
    if (length == 0)
        return 0;
    while (used < length - 1 && source[used] != 0) {
        destination[used] = source[used];
        used++;
    }
    for (vm_size_t i = used; i < length; i++)
        destination[i] = 0;
    return used + 1;
}
