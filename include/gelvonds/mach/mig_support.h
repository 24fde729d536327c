/* What MIG's stubs call, and the loop of a server. */
#ifndef _MACH_MIG_SUPPORT_H_
#define _MACH_MIG_SUPPORT_H_

#include <mach/message.h>
#include <mach/mach_types.h>
#include <string.h> /* stubs copy by memcpy */

#ifdef __cplusplus
extern "C" {
#endif

/* The thread's own reply port, made at the first call; it goes with the thread. 0 where it is refused. */
mach_port_t mig_get_reply_port(void);
/* A stub is done with the reply port, which stays. */
void mig_put_reply_port(mach_port_t port);
/* Destroys the thread's reply port, whatever port is: a late reply then finds it dead. */
void mig_dealloc_reply_port(mach_port_t port);

/* Copies a string into so many bytes, the last of them 0, and fills the rest with zeros. Returns its length with one
 * 0. */
vm_size_t mig_strncpy(char *destination, const char *source, vm_size_t length);

/* Pages for data, by vm_allocate and vm_deallocate; the address is 0 where memory is refused. */
void mig_allocate(vm_address_t *address, vm_size_t size);
void mig_deallocate(vm_address_t address, vm_size_t size);

#ifdef __cplusplus
}
#endif

#endif
