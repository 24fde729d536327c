/* The calls that need no port. */
#ifndef _MACH_MACH_TRAPS_H_
#define _MACH_MACH_TRAPS_H_

#include <mach/mach_types.h>

#ifdef __cplusplus
extern "C" {
#endif

/* The task of the calling thread; 0 where there is none: out of memory, or in a child of fork. */
mach_port_t mach_task_self(void);

/* A new port of the calling thread's task, of which it has the receive right; 0 where it is refused. */
mach_port_t mach_reply_port(void);

#ifdef __cplusplus
}
#endif

#endif
