/* The numbers of Mach: natural_t and integer_t have 32 bits, addresses those of the machine. */
#ifndef _MACH_MACHINE_VM_TYPES_H_
#define _MACH_MACHINE_VM_TYPES_H_

#include <stdint.h>

typedef uint32_t natural_t;
typedef int32_t integer_t;
typedef uintptr_t vm_offset_t;
typedef vm_offset_t vm_address_t;
typedef uintptr_t vm_size_t;

#endif
