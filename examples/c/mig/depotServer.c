/* Module depot */

#ifndef _GNU_SOURCE
#define _GNU_SOURCE 1
#endif

#define EXPORT_BOOLEAN
#include <mach/boolean.h>
#include <mach/kern_return.h>
#include <mach/message.h>
#include <mach/mig_errors.h>
#include <mach/mig_support.h>
#include <stdint.h>

#ifndef	mig_internal
#define	mig_internal	static
#endif

#ifndef	mig_external
#define mig_external
#endif

#ifndef	mig_unlikely
#define	mig_unlikely(X)	__builtin_expect (!! (X), 0)
#endif

#ifndef	TypeCheck
#define	TypeCheck 1
#endif

#ifndef	UseExternRCSId
#define	UseExternRCSId		1
#endif

#define BAD_TYPECHECK(type, check) mig_unlikely (({\
  union { mach_msg_type_t t; uint32_t w; } _t, _c;\
  _t.t = *(type); _c.t = *(check);_t.w != _c.w; }))
#define msgh_request_port	msgh_local_port
#define MACH_MSGH_BITS_REQUEST(bits)	MACH_MSGH_BITS_LOCAL(bits)
#define msgh_reply_port		msgh_remote_port
#define MACH_MSGH_BITS_REPLY(bits)	MACH_MSGH_BITS_REMOTE(bits)

#include <mach/std_types.h>
#include "depot_types.h"

/* Routine depot_put */
mig_internal void _Xdepot_put
	(mach_msg_header_t *InHeadP, mach_msg_header_t *OutHeadP)
{
#pragma pack(push,4)
	typedef struct {
		mach_msg_header_t Head;
		mach_msg_type_long_t dataType;
		union {
			char data[2048];
			char *dataP;
		};
	} Request;
#pragma pack(pop)

#pragma pack(push,4)
	typedef struct {
		mach_msg_header_t Head;
		mach_msg_type_t RetCodeType;
		kern_return_t RetCode;
		mach_msg_type_t sumType;
		int sum;
	} Reply;
#pragma pack(pop)

	Request *In0P = (Request *) InHeadP;
	Reply *OutP = (Reply *) OutHeadP;
	mig_external kern_return_t do_depot_put
		(mach_port_t depot, const_depot_data_t data, mach_msg_type_number_t dataCnt, int *sum);

#if	TypeCheck
	boolean_t msgh_simple = msgh_simple;
#endif	/* TypeCheck */

	unsigned int msgh_size;

	const mach_msg_type_t sumType = {
		/* msgt_name = */		(unsigned char) MACH_MSG_TYPE_INTEGER_32,
		/* msgt_size = */		32,
		/* msgt_number = */		1,
		/* msgt_inline = */		TRUE,
		/* msgt_longform = */		FALSE,
		/* msgt_deallocate = */		FALSE,
		/* msgt_unused = */		0
	};
	_Static_assert(sizeof(int) == 4 * 1, "expected int to be size 4 * 1");

#if	TypeCheck
	msgh_size = In0P->Head.msgh_size;
	msgh_simple = !(In0P->Head.msgh_bits & MACH_MSGH_BITS_COMPLEX);
	if (mig_unlikely ((msgh_size < 36)))
		{ OutP->RetCode = MIG_BAD_ARGUMENTS; return; }
#endif	/* TypeCheck */

#if	TypeCheck
	if (mig_unlikely ((In0P->dataType.msgtl_header.msgt_longform != TRUE) ||
	    (In0P->dataType.msgtl_name != MACH_MSG_TYPE_CHAR) ||
	    (In0P->dataType.msgtl_size != 8)))
		{ OutP->RetCode = MIG_BAD_ARGUMENTS; return; }
#endif	/* TypeCheck */

#if	TypeCheck
	if (mig_unlikely (msgh_size != 36 + ((In0P->dataType.msgtl_header.msgt_inline) ? (In0P->dataType.msgtl_number + 3) & ~3 : sizeof(char *))))
		{ OutP->RetCode = MIG_BAD_ARGUMENTS; return; }
#endif	/* TypeCheck */

	OutP->RetCode = do_depot_put(In0P->Head.msgh_request_port, (In0P->dataType.msgtl_header.msgt_inline) ? In0P->data : In0P->dataP, In0P->dataType.msgtl_number, &OutP->sum);
	if (OutP->RetCode == KERN_SUCCESS)
		if (!In0P->dataType.msgtl_header.msgt_inline)
			mig_deallocate((vm_offset_t) In0P->dataP,  In0P->dataType.msgtl_number);
	if (OutP->RetCode != KERN_SUCCESS)
		return;

	OutP->Head.msgh_size = 40;

	OutP->sumType = sumType;
}

/* Default implementation of do_depot_put */
#ifdef	MIG_EOPNOTSUPP
kern_return_t __attribute__ ((weak))
do_depot_put
(
	mach_port_t depot,
	const_depot_data_t data,
	mach_msg_type_number_t dataCnt,
	int *sum
) { return MIG_EOPNOTSUPP; }
#endif	/* MIG_EOPNOTSUPP */

/* Routine depot_get */
mig_internal void _Xdepot_get
	(mach_msg_header_t *InHeadP, mach_msg_header_t *OutHeadP)
{
#pragma pack(push,4)
	typedef struct {
		mach_msg_header_t Head;
		mach_msg_type_t lengthType;
		int length;
	} Request;
#pragma pack(pop)

#pragma pack(push,4)
	typedef struct {
		mach_msg_header_t Head;
		mach_msg_type_t RetCodeType;
		kern_return_t RetCode;
		mach_msg_type_long_t dataType;
		union {
			char data[2048];
			char *dataP;
		};
	} Reply;
#pragma pack(pop)

	Request *In0P = (Request *) InHeadP;
	Reply *OutP = (Reply *) OutHeadP;
	mig_external kern_return_t do_depot_get
		(mach_port_t depot, int length, depot_data_t *data, mach_msg_type_number_t *dataCnt);

	boolean_t msgh_simple = msgh_simple;
	const mach_msg_type_t lengthCheck = {
		/* msgt_name = */		(unsigned char) MACH_MSG_TYPE_INTEGER_32,
		/* msgt_size = */		32,
		/* msgt_number = */		1,
		/* msgt_inline = */		TRUE,
		/* msgt_longform = */		FALSE,
		/* msgt_deallocate = */		FALSE,
		/* msgt_unused = */		0
	};

	const mach_msg_type_long_t dataType = {
	{
		/* msgt_name = */		0,
		/* msgt_size = */		0,
		/* msgt_number = */		0,
		/* msgt_inline = */		TRUE,
		/* msgt_longform = */		TRUE,
		/* msgt_deallocate = */		FALSE,
		/* msgt_unused = */		0
	},
		/* msgtl_name = */	(unsigned short) MACH_MSG_TYPE_CHAR,
		/* msgtl_size = */	8,
		/* msgtl_number = */	2048,
	};

	mach_msg_type_number_t dataCnt;

	char *dataP;

#if	TypeCheck
	if (mig_unlikely ((In0P->Head.msgh_size != 32) ||
	    (In0P->Head.msgh_bits & MACH_MSGH_BITS_COMPLEX)))
		{ OutP->RetCode = MIG_BAD_ARGUMENTS; return; }
#endif	/* TypeCheck */

#if	TypeCheck
	if (BAD_TYPECHECK(&In0P->lengthType, &lengthCheck))
		{ OutP->RetCode = MIG_BAD_ARGUMENTS; return; }
#endif	/* TypeCheck */

	dataP = OutP->data;
	dataCnt = 2048;

	OutP->RetCode = do_depot_get(In0P->Head.msgh_request_port, In0P->length, &dataP, &dataCnt);
	if (OutP->RetCode != KERN_SUCCESS)
		return;

	msgh_simple = TRUE;

	OutP->dataType = dataType;
	if (dataP != OutP->data) {
		OutP->dataType.msgtl_header.msgt_inline = FALSE;
		OutP->dataType.msgtl_header.msgt_deallocate = TRUE;
		OutP->dataP = dataP;
		msgh_simple = FALSE;
	}

	OutP->dataType.msgtl_number = dataCnt;
	OutP->Head.msgh_size = 44 + ((OutP->dataType.msgtl_header.msgt_inline) ? (dataCnt + 3) & ~3 : sizeof(char *));

	if (!msgh_simple)
		OutP->Head.msgh_bits |= MACH_MSGH_BITS_COMPLEX;
}

/* Default implementation of do_depot_get */
#ifdef	MIG_EOPNOTSUPP
kern_return_t __attribute__ ((weak))
do_depot_get
(
	mach_port_t depot,
	int length,
	depot_data_t *data,
	mach_msg_type_number_t *dataCnt
) { return MIG_EOPNOTSUPP; }
#endif	/* MIG_EOPNOTSUPP */

/* Routine depot_reverse */
mig_internal void _Xdepot_reverse
	(mach_msg_header_t *InHeadP, mach_msg_header_t *OutHeadP)
{
#pragma pack(push,4)
	typedef struct {
		mach_msg_header_t Head;
		mach_msg_type_long_t dataType;
		union {
			char data[2048];
			char *dataP;
		};
	} Request;
#pragma pack(pop)

#pragma pack(push,4)
	typedef struct {
		mach_msg_header_t Head;
		mach_msg_type_t RetCodeType;
		kern_return_t RetCode;
		mach_msg_type_long_t backType;
		union {
			char back[2048];
			char *backP;
		};
	} Reply;
#pragma pack(pop)

	Request *In0P = (Request *) InHeadP;
	Reply *OutP = (Reply *) OutHeadP;
	mig_external kern_return_t do_depot_reverse
		(mach_port_t depot, const_depot_data_t data, mach_msg_type_number_t dataCnt, depot_data_t *back, mach_msg_type_number_t *backCnt);

	boolean_t msgh_simple = msgh_simple;
	unsigned int msgh_size;

	const mach_msg_type_long_t backType = {
	{
		/* msgt_name = */		0,
		/* msgt_size = */		0,
		/* msgt_number = */		0,
		/* msgt_inline = */		TRUE,
		/* msgt_longform = */		TRUE,
		/* msgt_deallocate = */		FALSE,
		/* msgt_unused = */		0
	},
		/* msgtl_name = */	(unsigned short) MACH_MSG_TYPE_CHAR,
		/* msgtl_size = */	8,
		/* msgtl_number = */	2048,
	};

	mach_msg_type_number_t backCnt;

	char *backP;

#if	TypeCheck
	msgh_size = In0P->Head.msgh_size;
	msgh_simple = !(In0P->Head.msgh_bits & MACH_MSGH_BITS_COMPLEX);
	if (mig_unlikely ((msgh_size < 36)))
		{ OutP->RetCode = MIG_BAD_ARGUMENTS; return; }
#endif	/* TypeCheck */

#if	TypeCheck
	if (mig_unlikely ((In0P->dataType.msgtl_header.msgt_longform != TRUE) ||
	    (In0P->dataType.msgtl_name != MACH_MSG_TYPE_CHAR) ||
	    (In0P->dataType.msgtl_size != 8)))
		{ OutP->RetCode = MIG_BAD_ARGUMENTS; return; }
#endif	/* TypeCheck */

#if	TypeCheck
	if (mig_unlikely (msgh_size != 36 + ((In0P->dataType.msgtl_header.msgt_inline) ? (In0P->dataType.msgtl_number + 3) & ~3 : sizeof(char *))))
		{ OutP->RetCode = MIG_BAD_ARGUMENTS; return; }
#endif	/* TypeCheck */

	backP = OutP->back;
	backCnt = 2048;

	OutP->RetCode = do_depot_reverse(In0P->Head.msgh_request_port, (In0P->dataType.msgtl_header.msgt_inline) ? In0P->data : In0P->dataP, In0P->dataType.msgtl_number, &backP, &backCnt);
	if (OutP->RetCode == KERN_SUCCESS)
		if (!In0P->dataType.msgtl_header.msgt_inline)
			mig_deallocate((vm_offset_t) In0P->dataP,  In0P->dataType.msgtl_number);
	if (OutP->RetCode != KERN_SUCCESS)
		return;

	msgh_simple = TRUE;

	OutP->backType = backType;
	if (backP != OutP->back) {
		OutP->backType.msgtl_header.msgt_inline = FALSE;
		OutP->backType.msgtl_header.msgt_deallocate = TRUE;
		OutP->backP = backP;
		msgh_simple = FALSE;
	}

	OutP->backType.msgtl_number = backCnt;
	OutP->Head.msgh_size = 44 + ((OutP->backType.msgtl_header.msgt_inline) ? (backCnt + 3) & ~3 : sizeof(char *));

	if (!msgh_simple)
		OutP->Head.msgh_bits |= MACH_MSGH_BITS_COMPLEX;
}

/* Default implementation of do_depot_reverse */
#ifdef	MIG_EOPNOTSUPP
kern_return_t __attribute__ ((weak))
do_depot_reverse
(
	mach_port_t depot,
	const_depot_data_t data,
	mach_msg_type_number_t dataCnt,
	depot_data_t *back,
	mach_msg_type_number_t *backCnt
) { return MIG_EOPNOTSUPP; }
#endif	/* MIG_EOPNOTSUPP */

/* Routine depot_keep */
mig_internal void _Xdepot_keep
	(mach_msg_header_t *InHeadP, mach_msg_header_t *OutHeadP)
{
#pragma pack(push,4)
	typedef struct {
		mach_msg_header_t Head;
		mach_msg_type_long_t rightsType;
		union {
			mach_port_t rights[512];
			mach_port_t *rightsP;
		};
	} Request;
#pragma pack(pop)

#pragma pack(push,4)
	typedef struct {
		mach_msg_header_t Head;
		mach_msg_type_t RetCodeType;
		kern_return_t RetCode;
		mach_msg_type_t keptType;
		int kept;
	} Reply;
#pragma pack(pop)

	Request *In0P = (Request *) InHeadP;
	Reply *OutP = (Reply *) OutHeadP;
	mig_external kern_return_t do_depot_keep
		(mach_port_t depot, const_mach_port_array_t rights, mach_msg_type_number_t rightsCnt, int *kept);

	unsigned int msgh_size;

	const mach_msg_type_t keptType = {
		/* msgt_name = */		(unsigned char) MACH_MSG_TYPE_INTEGER_32,
		/* msgt_size = */		32,
		/* msgt_number = */		1,
		/* msgt_inline = */		TRUE,
		/* msgt_longform = */		FALSE,
		/* msgt_deallocate = */		FALSE,
		/* msgt_unused = */		0
	};
	_Static_assert(sizeof(int) == 4 * 1, "expected int to be size 4 * 1");

#if	TypeCheck
	msgh_size = In0P->Head.msgh_size;
	if (mig_unlikely ((msgh_size < 36) ||
	    !(In0P->Head.msgh_bits & MACH_MSGH_BITS_COMPLEX)))
		{ OutP->RetCode = MIG_BAD_ARGUMENTS; return; }
#endif	/* TypeCheck */

#if	TypeCheck
	if (mig_unlikely ((In0P->rightsType.msgtl_header.msgt_longform != TRUE) ||
	    (In0P->rightsType.msgtl_name != MACH_MSG_TYPE_PORT_SEND) ||
	    (In0P->rightsType.msgtl_size != 32)))
		{ OutP->RetCode = MIG_BAD_ARGUMENTS; return; }
#endif	/* TypeCheck */

#if	TypeCheck
	if (mig_unlikely (msgh_size != 36 + ((In0P->rightsType.msgtl_header.msgt_inline) ? 4 * In0P->rightsType.msgtl_number : sizeof(mach_port_t *))))
		{ OutP->RetCode = MIG_BAD_ARGUMENTS; return; }
#endif	/* TypeCheck */

	OutP->RetCode = do_depot_keep(In0P->Head.msgh_request_port, (In0P->rightsType.msgtl_header.msgt_inline) ? In0P->rights : In0P->rightsP, In0P->rightsType.msgtl_number, &OutP->kept);
	if (OutP->RetCode == KERN_SUCCESS)
		if (!In0P->rightsType.msgtl_header.msgt_inline)
			mig_deallocate((vm_offset_t) In0P->rightsP, 4 *  In0P->rightsType.msgtl_number);
	if (OutP->RetCode != KERN_SUCCESS)
		return;

	OutP->Head.msgh_size = 40;

	OutP->keptType = keptType;
}

/* Default implementation of do_depot_keep */
#ifdef	MIG_EOPNOTSUPP
kern_return_t __attribute__ ((weak))
do_depot_keep
(
	mach_port_t depot,
	const_mach_port_array_t rights,
	mach_msg_type_number_t rightsCnt,
	int *kept
) { return MIG_EOPNOTSUPP; }
#endif	/* MIG_EOPNOTSUPP */

/* Routine depot_return */
mig_internal void _Xdepot_return
	(mach_msg_header_t *InHeadP, mach_msg_header_t *OutHeadP)
{
#pragma pack(push,4)
	typedef struct {
		mach_msg_header_t Head;
	} Request;
#pragma pack(pop)

#pragma pack(push,4)
	typedef struct {
		mach_msg_header_t Head;
		mach_msg_type_t RetCodeType;
		kern_return_t RetCode;
		mach_msg_type_long_t rightsType;
		union {
			mach_port_t rights[512];
			mach_port_t *rightsP;
		};
	} Reply;
#pragma pack(pop)

	Request *In0P = (Request *) InHeadP;
	Reply *OutP = (Reply *) OutHeadP;
	mig_external kern_return_t do_depot_return
		(mach_port_t depot, mach_port_array_t *rights, mach_msg_type_number_t *rightsCnt);

	const mach_msg_type_long_t rightsType = {
	{
		/* msgt_name = */		0,
		/* msgt_size = */		0,
		/* msgt_number = */		0,
		/* msgt_inline = */		TRUE,
		/* msgt_longform = */		TRUE,
		/* msgt_deallocate = */		FALSE,
		/* msgt_unused = */		0
	},
		/* msgtl_name = */	(unsigned short) MACH_MSG_TYPE_MOVE_SEND,
		/* msgtl_size = */	32,
		/* msgtl_number = */	512,
	};

	mach_msg_type_number_t rightsCnt;

	mach_port_t *rightsP;

#if	TypeCheck
	if (mig_unlikely ((In0P->Head.msgh_size != 24) ||
	    (In0P->Head.msgh_bits & MACH_MSGH_BITS_COMPLEX)))
		{ OutP->RetCode = MIG_BAD_ARGUMENTS; return; }
#endif	/* TypeCheck */

	rightsP = OutP->rights;
	rightsCnt = 512;

	OutP->RetCode = do_depot_return(In0P->Head.msgh_request_port, &rightsP, &rightsCnt);
	if (OutP->RetCode != KERN_SUCCESS)
		return;

	OutP->Head.msgh_bits |= MACH_MSGH_BITS_COMPLEX;

	OutP->rightsType = rightsType;
	if (rightsP != OutP->rights) {
		OutP->rightsType.msgtl_header.msgt_inline = FALSE;
		OutP->rightsType.msgtl_header.msgt_deallocate = TRUE;
		OutP->rightsP = rightsP;
	}

	OutP->rightsType.msgtl_number = rightsCnt;
	OutP->Head.msgh_size = 44 + ((OutP->rightsType.msgtl_header.msgt_inline) ? 4 * rightsCnt : sizeof(mach_port_t *));
}

/* Default implementation of do_depot_return */
#ifdef	MIG_EOPNOTSUPP
kern_return_t __attribute__ ((weak))
do_depot_return
(
	mach_port_t depot,
	mach_port_array_t *rights,
	mach_msg_type_number_t *rightsCnt
) { return MIG_EOPNOTSUPP; }
#endif	/* MIG_EOPNOTSUPP */

/* Routine depot_refuse */
mig_internal void _Xdepot_refuse
	(mach_msg_header_t *InHeadP, mach_msg_header_t *OutHeadP)
{
#pragma pack(push,4)
	typedef struct {
		mach_msg_header_t Head;
		mach_msg_type_long_t dataType;
		union {
			char data[2048];
			char *dataP;
		};
		mach_msg_type_t labelType;
		union {
			char label[4000];
			char *labelP;
		};
	} Request;
#pragma pack(pop)

#pragma pack(push,4)
	typedef struct {
		mach_msg_header_t Head;
		mach_msg_type_t RetCodeType;
		kern_return_t RetCode;
	} Reply;
#pragma pack(pop)

	Request *In0P = (Request *) InHeadP;
	Request *In1P;
	Reply *OutP = (Reply *) OutHeadP;
	mig_external kern_return_t do_depot_refuse
		(mach_port_t depot, const_depot_data_t data, mach_msg_type_number_t dataCnt, const depot_label_t label, mach_msg_type_number_t labelCnt);

#if	TypeCheck
	boolean_t msgh_simple = msgh_simple;
#endif	/* TypeCheck */

	unsigned int msgh_size;
	unsigned int msgh_size_delta;

#if	TypeCheck
	msgh_size = In0P->Head.msgh_size;
	msgh_simple = !(In0P->Head.msgh_bits & MACH_MSGH_BITS_COMPLEX);
	if (mig_unlikely ((msgh_size < 40)))
		{ OutP->RetCode = MIG_BAD_ARGUMENTS; return; }
#endif	/* TypeCheck */

#if	TypeCheck
	if (mig_unlikely ((In0P->dataType.msgtl_header.msgt_longform != TRUE) ||
	    (In0P->dataType.msgtl_name != MACH_MSG_TYPE_CHAR) ||
	    (In0P->dataType.msgtl_size != 8)))
		{ OutP->RetCode = MIG_BAD_ARGUMENTS; return; }
#endif	/* TypeCheck */

	msgh_size_delta = (In0P->dataType.msgtl_header.msgt_inline) ? (In0P->dataType.msgtl_number + 3) & ~3 : sizeof(char *);
#if	TypeCheck
	if (mig_unlikely (msgh_size < 40 + msgh_size_delta))
		{ OutP->RetCode = MIG_BAD_ARGUMENTS; return; }
	msgh_size -= msgh_size_delta;
#endif	/* TypeCheck */

	In1P = (Request *) ((char *) In0P + msgh_size_delta - 2048);

#if	TypeCheck
	if (mig_unlikely ((In1P->labelType.msgt_inline != TRUE) ||
	    (In1P->labelType.msgt_longform != FALSE) ||
	    (In1P->labelType.msgt_name != MACH_MSG_TYPE_CHAR) ||
	    (In1P->labelType.msgt_size != 8)))
		{ OutP->RetCode = MIG_BAD_ARGUMENTS; return; }
#endif	/* TypeCheck */

#if	TypeCheck
	if (mig_unlikely (msgh_size != 40 + ((In1P->labelType.msgt_number + 3) & ~3)))
		{ OutP->RetCode = MIG_BAD_ARGUMENTS; return; }
#endif	/* TypeCheck */

	OutP->RetCode = do_depot_refuse(In0P->Head.msgh_request_port, (In0P->dataType.msgtl_header.msgt_inline) ? In0P->data : In0P->dataP, In0P->dataType.msgtl_number, In1P->label, In1P->labelType.msgt_number);
	if (OutP->RetCode == KERN_SUCCESS)
		if (!In0P->dataType.msgtl_header.msgt_inline)
			mig_deallocate((vm_offset_t) In0P->dataP,  In0P->dataType.msgtl_number);
}

/* Default implementation of do_depot_refuse */
#ifdef	MIG_EOPNOTSUPP
kern_return_t __attribute__ ((weak))
do_depot_refuse
(
	mach_port_t depot,
	const_depot_data_t data,
	mach_msg_type_number_t dataCnt,
	const depot_label_t label,
	mach_msg_type_number_t labelCnt
) { return MIG_EOPNOTSUPP; }
#endif	/* MIG_EOPNOTSUPP */

mig_routine_t depot_server_routines[] = {
		_Xdepot_put,
		_Xdepot_get,
		_Xdepot_reverse,
		_Xdepot_keep,
		_Xdepot_return,
		_Xdepot_refuse,
};

mig_external boolean_t depot_server
	(mach_msg_header_t *InHeadP, mach_msg_header_t *OutHeadP)
{
	mach_msg_header_t *InP =  InHeadP;
	mig_reply_header_t *OutP = (mig_reply_header_t *) OutHeadP;

	const mach_msg_type_t RetCodeType = {
		/* msgt_name = */		(unsigned char) MACH_MSG_TYPE_INTEGER_32,
		/* msgt_size = */		32,
		/* msgt_number = */		1,
		/* msgt_inline = */		TRUE,
		/* msgt_longform = */		FALSE,
		/* msgt_deallocate = */		FALSE,
		/* msgt_unused = */		0
	};
	_Static_assert(sizeof(kern_return_t) == 4 * 1, "expected kern_return_t to be size 4 * 1");

	mig_routine_t routine;

	OutP->Head.msgh_bits = MACH_MSGH_BITS(MACH_MSGH_BITS_REPLY(InP->msgh_bits), 0);
	OutP->Head.msgh_size = sizeof *OutP;
	OutP->Head.msgh_remote_port = InP->msgh_reply_port;
	OutP->Head.msgh_local_port = MACH_PORT_NULL;
	OutP->Head.msgh_seqno = 0;
	OutP->Head.msgh_id = InP->msgh_id + 100;

	OutP->RetCodeType = RetCodeType;

	if ((InP->msgh_id > 52005) || (InP->msgh_id < 52000) ||
	    ((routine = depot_server_routines[InP->msgh_id - 52000]) == 0)) {
		OutP->RetCode = MIG_BAD_ID;
		return FALSE;
	}
	(*routine) (InP, &OutP->Head);
	return TRUE;
}

