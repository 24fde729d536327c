/* As <mach/mach_traps.h>: mach_task_self needs no preparation. */
#ifndef _MACH_INIT_H
#define _MACH_INIT_H

#include <mach/mach_traps.h>

#endif
