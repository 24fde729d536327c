#ifndef	_depot_server_
#define	_depot_server_

/* Module depot */

#include <mach/kern_return.h>
#include <mach/port.h>
#include <mach/message.h>

#include <mach/mig_errors.h>
#include <mach/std_types.h>
#include "depot_types.h"

/* Routine depot_put */
#ifdef	mig_external
mig_external
#else
extern
#endif
kern_return_t do_depot_put
(
	mach_port_t depot,
	const_depot_data_t data,
	mach_msg_type_number_t dataCnt,
	int *sum
);

/* Routine depot_get */
#ifdef	mig_external
mig_external
#else
extern
#endif
kern_return_t do_depot_get
(
	mach_port_t depot,
	int length,
	depot_data_t *data,
	mach_msg_type_number_t *dataCnt
);

/* Routine depot_reverse */
#ifdef	mig_external
mig_external
#else
extern
#endif
kern_return_t do_depot_reverse
(
	mach_port_t depot,
	const_depot_data_t data,
	mach_msg_type_number_t dataCnt,
	depot_data_t *back,
	mach_msg_type_number_t *backCnt
);

/* Routine depot_keep */
#ifdef	mig_external
mig_external
#else
extern
#endif
kern_return_t do_depot_keep
(
	mach_port_t depot,
	const_mach_port_array_t rights,
	mach_msg_type_number_t rightsCnt,
	int *kept
);

/* Routine depot_return */
#ifdef	mig_external
mig_external
#else
extern
#endif
kern_return_t do_depot_return
(
	mach_port_t depot,
	mach_port_array_t *rights,
	mach_msg_type_number_t *rightsCnt
);

/* Routine depot_refuse */
#ifdef	mig_external
mig_external
#else
extern
#endif
kern_return_t do_depot_refuse
(
	mach_port_t depot,
	const_depot_data_t data,
	mach_msg_type_number_t dataCnt,
	const depot_label_t label,
	mach_msg_type_number_t labelCnt
);

extern mig_routine_t depot_server_routines[];
static __inline mig_routine_t depot_server_routine
	(const mach_msg_header_t *InHeadP)
{
	int msgh_id;

	msgh_id = InHeadP->msgh_id - 52000;

	if ((msgh_id > 5) || (msgh_id < 0))
		return 0;

	return depot_server_routines[msgh_id];
}

#endif	/* not defined(_depot_server_) */
