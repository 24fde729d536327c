/* Pages of this process: vm_allocate, vm_deallocate, and MIG's use of them. They make no call of the kernel. */
#include "layer.h"

#include <sys/mman.h>
#include <unistd.h>

static vm_size_t whole_pages(vm_size_t size)
{
    const vm_size_t page = (vm_size_t)sysconf(_SC_PAGESIZE);
    return (size + page - 1) / page * page;
}

kern_return_t vm_allocate(task_t target_task, vm_address_t *address, vm_size_t size, boolean_t anywhere)
{
    const vm_size_t length = whole_pages(size);
    void *wanted = anywhere ? NULL : (void *)*address;
    void *found;
    (void)target_task;
    if (size == 0) {
        *address = 0;
        return KERN_SUCCESS;
    }
    if (length < size)
        return KERN_RESOURCE_SHORTAGE;
    found = mmap(wanted, length, PROT_READ | PROT_WRITE, MAP_PRIVATE | MAP_ANONYMOUS, -1, 0);
    if (found == MAP_FAILED)
        return KERN_RESOURCE_SHORTAGE;
    if (!anywhere && found != wanted) {
        munmap(found, length);
        return KERN_NO_SPACE;
    }
    *address = (vm_address_t)found;
    return KERN_SUCCESS;
}

kern_return_t vm_deallocate(task_t target_task, vm_address_t address, vm_size_t size)
{
    (void)target_task;
    if (size == 0)
        return KERN_SUCCESS;
    return munmap((void *)address, whole_pages(size)) == 0 ? KERN_SUCCESS : KERN_INVALID_ARGUMENT;
}

void mig_allocate(vm_address_t *address, vm_size_t size)
{
    if (vm_allocate(TASK_NULL, address, size, TRUE) != KERN_SUCCESS)
        *address = 0;
}

void mig_deallocate(vm_address_t address, vm_size_t size)
{
    vm_deallocate(TASK_NULL, address, size);
}
