#ifndef	_watcher_user_
#define	_watcher_user_

/* Module watcher */

#include <mach/kern_return.h>
#include <mach/port.h>
#include <mach/message.h>

#include <mach/std_types.h>
#include "store_types.h"

/* SimpleRoutine watcher_changed */
#ifdef	mig_external
mig_external
#else
extern
#endif
kern_return_t watcher_changed
(
	mach_port_t watcher,
	const_store_key_t key,
	int length
);

/* SimpleRoutine watcher_removed */
#ifdef	mig_external
mig_external
#else
extern
#endif
kern_return_t watcher_removed
(
	mach_port_t watcher,
	const_store_key_t key
);

#endif	/* not defined(_watcher_user_) */
