#ifndef	_first_server_
#define	_first_server_

/* Module first */

#include <mach/kern_return.h>
#include <mach/port.h>
#include <mach/message.h>

#include <mach/mig_errors.h>
#include <mach/std_types.h>

/* Routine first_add */
#ifdef	mig_external
mig_external
#else
extern
#endif
kern_return_t do_first_add
(
	mach_port_t server,
	int a,
	int b,
	int *sum
);

extern mig_routine_t first_server_routines[];
static __inline mig_routine_t first_server_routine
	(const mach_msg_header_t *InHeadP)
{
	int msgh_id;

	msgh_id = InHeadP->msgh_id - 40000;

	if ((msgh_id > 0) || (msgh_id < 0))
		return 0;

	return first_server_routines[msgh_id];
}

#endif	/* not defined(_first_server_) */
