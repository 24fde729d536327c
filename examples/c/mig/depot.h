#ifndef	_depot_user_
#define	_depot_user_

/* Module depot */

#include <mach/kern_return.h>
#include <mach/port.h>
#include <mach/message.h>

#include <mach/std_types.h>
#include "depot_types.h"

/* Routine depot_put */
#ifdef	mig_external
mig_external
#else
extern
#endif
kern_return_t depot_put
(
	mach_port_t depot,
	const_depot_data_t data,
	mach_msg_type_number_t dataCnt,
	int *sum
);

/* Routine depot_get */
#ifdef	mig_external
mig_external
#else
extern
#endif
kern_return_t depot_get
(
	mach_port_t depot,
	int length,
	depot_data_t *data,
	mach_msg_type_number_t *dataCnt
);

/* Routine depot_reverse */
#ifdef	mig_external
mig_external
#else
extern
#endif
kern_return_t depot_reverse
(
	mach_port_t depot,
	const_depot_data_t data,
	mach_msg_type_number_t dataCnt,
	depot_data_t *back,
	mach_msg_type_number_t *backCnt
);

/* Routine depot_keep */
#ifdef	mig_external
mig_external
#else
extern
#endif
kern_return_t depot_keep
(
	mach_port_t depot,
	const_mach_port_array_t rights,
	mach_msg_type_number_t rightsCnt,
	int *kept
);

/* Routine depot_return */
#ifdef	mig_external
mig_external
#else
extern
#endif
kern_return_t depot_return
(
	mach_port_t depot,
	mach_port_array_t *rights,
	mach_msg_type_number_t *rightsCnt
);

/* Routine depot_refuse */
#ifdef	mig_external
mig_external
#else
extern
#endif
kern_return_t depot_refuse
(
	mach_port_t depot,
	const_depot_data_t data,
	mach_msg_type_number_t dataCnt,
	const depot_label_t label,
	mach_msg_type_number_t labelCnt
);

#endif	/* not defined(_depot_user_) */
