#ifndef	_store_server_
#define	_store_server_

/* Module store */

#include <mach/kern_return.h>
#include <mach/port.h>
#include <mach/message.h>

#include <mach/mig_errors.h>
#include <mach/std_types.h>
#include <mach/mach_types.h>
#include "store_types.h"

/* Routine store_report */
#ifdef	mig_external
mig_external
#else
extern
#endif
kern_return_t do_store_report
(
	mach_port_t store,
	int *entries,
	int *bytes,
	int *watchers,
	int *opened
);

/* Routine store_put */
#ifdef	mig_external
mig_external
#else
extern
#endif
kern_return_t do_store_put
(
	mach_port_t store,
	const_store_key_t key,
	const store_value_t value,
	mach_msg_type_number_t valueCnt,
	int *number
);

/* Routine store_get */
#ifdef	mig_external
mig_external
#else
extern
#endif
kern_return_t do_store_get
(
	mach_port_t store,
	const_store_key_t key,
	store_value_t value,
	mach_msg_type_number_t *valueCnt
);

/* Routine store_get_part */
#ifdef	mig_external
mig_external
#else
extern
#endif
kern_return_t do_store_get_part
(
	mach_port_t store,
	int number,
	int first,
	int length,
	store_value_t value,
	mach_msg_type_number_t *valueCnt
);

/* Routine store_lengths */
#ifdef	mig_external
mig_external
#else
extern
#endif
kern_return_t do_store_lengths
(
	mach_port_t store,
	const store_numbers_t numbers,
	mach_msg_type_number_t numbersCnt,
	store_numbers_t lengths,
	mach_msg_type_number_t *lengthsCnt
);

/* Routine store_watch */
#ifdef	mig_external
mig_external
#else
extern
#endif
kern_return_t do_store_watch
(
	mach_port_t store,
	const_store_key_t key,
	mach_port_t watcher
);

/* Routine store_open */
#ifdef	mig_external
mig_external
#else
extern
#endif
kern_return_t do_store_open
(
	mach_port_t store,
	const_store_key_t key,
	mach_port_t *entry
);

/* Routine entry_append */
#ifdef	mig_external
mig_external
#else
extern
#endif
kern_return_t do_entry_append
(
	mach_port_t entry,
	const store_value_t value,
	mach_msg_type_number_t valueCnt,
	int *length
);

/* Routine store_adopt */
#ifdef	mig_external
mig_external
#else
extern
#endif
kern_return_t do_store_adopt
(
	mach_port_t store,
	mach_port_t service
);

/* Routine store_exchange */
#ifdef	mig_external
mig_external
#else
extern
#endif
kern_return_t do_store_exchange
(
	mach_port_t store,
	mach_port_t given,
	mach_msg_type_name_t givenPoly,
	mach_port_t *before
);

/* SimpleRoutine store_remove */
#ifdef	mig_external
mig_external
#else
extern
#endif
kern_return_t do_store_remove
(
	mach_port_t store,
	const_store_key_t key
);

/* Routine store_sleep */
#ifdef	mig_external
mig_external
#else
extern
#endif
kern_return_t do_store_sleep
(
	mach_port_t store,
	int milliseconds
);

extern mig_routine_t store_server_routines[];
static __inline mig_routine_t store_server_routine
	(const mach_msg_header_t *InHeadP)
{
	int msgh_id;

	msgh_id = InHeadP->msgh_id - 50000;

	if ((msgh_id > 11) || (msgh_id < 0))
		return 0;

	return store_server_routines[msgh_id];
}

#endif	/* not defined(_store_server_) */
