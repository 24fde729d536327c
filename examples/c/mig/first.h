#ifndef	_first_user_
#define	_first_user_

/* Module first */

#include <mach/kern_return.h>
#include <mach/port.h>
#include <mach/message.h>

#include <mach/std_types.h>

/* Routine first_add */
#ifdef	mig_external
mig_external
#else
extern
#endif
kern_return_t first_add
(
	mach_port_t server,
	int a,
	int b,
	int *sum
);

#endif	/* not defined(_first_user_) */
