/* kern_return_t, and the codes that a call of this kernel returns. */
#ifndef _MACH_KERN_RETURN_H_
#define _MACH_KERN_RETURN_H_

typedef int kern_return_t;

#define KERN_SUCCESS 0
#define KERN_NO_SPACE 3          /* a limit of names, tasks, rights or identities; no room at an address */
#define KERN_INVALID_ARGUMENT 4
#define KERN_FAILURE 5           /* (servers return it) */
#define KERN_RESOURCE_SHORTAGE 6 /* out of memory */
#define KERN_ALREADY_IN_SET 11
#define KERN_NOT_IN_SET 12
#define KERN_NAME_EXISTS 13
#define KERN_INVALID_NAME 15
#define KERN_INVALID_TASK 16     /* the task has ended; or the process is a child of fork */
#define KERN_INVALID_RIGHT 17
#define KERN_INVALID_VALUE 18
#define KERN_UREFS_OVERFLOW 19
#define KERN_INVALID_CAPABILITY 20
#define KERN_RIGHT_EXISTS 21

#endif
