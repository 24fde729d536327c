/* Calls of tasks and their memory, of those that are there. */
#ifndef _MACH_MACH_INTERFACE_H_
#define _MACH_MACH_INTERFACE_H_

#include <mach/mach_types.h>

#ifdef __cplusplus
extern "C" {
#endif

/* Ends the task, with all its names. Its threads run on, and each of their calls returns KERN_INVALID_TASK. */
kern_return_t task_terminate(task_t target_task);

/* Pages of this process's memory, filled with zeros. All tasks have the same memory, so target_task isn't looked at.
 * KERN_RESOURCE_SHORTAGE: out of memory; KERN_NO_SPACE: anywhere is false, and there is no room at the address. */
kern_return_t vm_allocate(task_t target_task, vm_address_t *address, vm_size_t size, boolean_t anywhere);

/* Gives back pages from vm_allocate or an array from a call. KERN_INVALID_ARGUMENT: no such pages. */
kern_return_t vm_deallocate(task_t target_task, vm_address_t address, vm_size_t size);

#ifdef __cplusplus
}
#endif

#endif
