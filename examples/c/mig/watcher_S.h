#ifndef	_watcher_server_
#define	_watcher_server_

/* Module watcher */

#include <mach/kern_return.h>
#include <mach/port.h>
#include <mach/message.h>

#include <mach/mig_errors.h>
#include <mach/std_types.h>
#include "store_types.h"

/* SimpleRoutine watcher_changed */
#ifdef	mig_external
mig_external
#else
extern
#endif
kern_return_t do_watcher_changed
(
	mach_port_t watcher,
	const_store_key_t key,
	int length
);

/* SimpleRoutine watcher_removed */
#ifdef	mig_external
mig_external
#else
extern
#endif
kern_return_t do_watcher_removed
(
	mach_port_t watcher,
	const_store_key_t key
);

extern mig_routine_t watcher_server_routines[];
static __inline mig_routine_t watcher_server_routine
	(const mach_msg_header_t *InHeadP)
{
	int msgh_id;

	msgh_id = InHeadP->msgh_id - 50200;

	if ((msgh_id > 1) || (msgh_id < 0))
		return 0;

	return watcher_server_routines[msgh_id];
}

#endif	/* not defined(_watcher_server_) */
