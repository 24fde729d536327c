/* Module store */

#ifndef _GNU_SOURCE
#define _GNU_SOURCE 1
#endif

#define EXPORT_BOOLEAN
#include <mach/boolean.h>
#include <mach/kern_return.h>
#include <mach/message.h>
#include <mach/mig_errors.h>
#include <mach/mig_support.h>
#include <stdint.h>

#ifndef	mig_internal
#define	mig_internal	static
#endif

#ifndef	mig_external
#define mig_external
#endif

#ifndef	mig_unlikely
#define	mig_unlikely(X)	__builtin_expect (!! (X), 0)
#endif

#ifndef	TypeCheck
#define	TypeCheck 1
#endif

#ifndef	UseExternRCSId
#define	UseExternRCSId		1
#endif

#define BAD_TYPECHECK(type, check) mig_unlikely (({\
  union { mach_msg_type_t t; uint32_t w; } _t, _c;\
  _t.t = *(type); _c.t = *(check);_t.w != _c.w; }))
#define msgh_request_port	msgh_local_port
#define MACH_MSGH_BITS_REQUEST(bits)	MACH_MSGH_BITS_LOCAL(bits)
#define msgh_reply_port		msgh_remote_port
#define MACH_MSGH_BITS_REPLY(bits)	MACH_MSGH_BITS_REMOTE(bits)

#include <mach/std_types.h>
#include <mach/mach_types.h>
#include "store_types.h"

/* Routine store_report */
mig_internal void _Xstore_report
	(mach_msg_header_t *InHeadP, mach_msg_header_t *OutHeadP)
{
#pragma pack(push,4)
	typedef struct {
		mach_msg_header_t Head;
	} Request;
#pragma pack(pop)

#pragma pack(push,4)
	typedef struct {
		mach_msg_header_t Head;
		mach_msg_type_t RetCodeType;
		kern_return_t RetCode;
		mach_msg_type_t entriesType;
		int entries;
		mach_msg_type_t bytesType;
		int bytes;
		mach_msg_type_t watchersType;
		int watchers;
		mach_msg_type_t openedType;
		int opened;
	} Reply;
#pragma pack(pop)

	Request *In0P = (Request *) InHeadP;
	Reply *OutP = (Reply *) OutHeadP;
	mig_external kern_return_t do_store_report
		(mach_port_t store, int *entries, int *bytes, int *watchers, int *opened);

	const mach_msg_type_t entriesType = {
		/* msgt_name = */		(unsigned char) MACH_MSG_TYPE_INTEGER_32,
		/* msgt_size = */		32,
		/* msgt_number = */		1,
		/* msgt_inline = */		TRUE,
		/* msgt_longform = */		FALSE,
		/* msgt_deallocate = */		FALSE,
		/* msgt_unused = */		0
	};
	_Static_assert(sizeof(int) == 4 * 1, "expected int to be size 4 * 1");

	const mach_msg_type_t bytesType = {
		/* msgt_name = */		(unsigned char) MACH_MSG_TYPE_INTEGER_32,
		/* msgt_size = */		32,
		/* msgt_number = */		1,
		/* msgt_inline = */		TRUE,
		/* msgt_longform = */		FALSE,
		/* msgt_deallocate = */		FALSE,
		/* msgt_unused = */		0
	};
	_Static_assert(sizeof(int) == 4 * 1, "expected int to be size 4 * 1");

	const mach_msg_type_t watchersType = {
		/* msgt_name = */		(unsigned char) MACH_MSG_TYPE_INTEGER_32,
		/* msgt_size = */		32,
		/* msgt_number = */		1,
		/* msgt_inline = */		TRUE,
		/* msgt_longform = */		FALSE,
		/* msgt_deallocate = */		FALSE,
		/* msgt_unused = */		0
	};
	_Static_assert(sizeof(int) == 4 * 1, "expected int to be size 4 * 1");

	const mach_msg_type_t openedType = {
		/* msgt_name = */		(unsigned char) MACH_MSG_TYPE_INTEGER_32,
		/* msgt_size = */		32,
		/* msgt_number = */		1,
		/* msgt_inline = */		TRUE,
		/* msgt_longform = */		FALSE,
		/* msgt_deallocate = */		FALSE,
		/* msgt_unused = */		0
	};
	_Static_assert(sizeof(int) == 4 * 1, "expected int to be size 4 * 1");

#if	TypeCheck
	if (mig_unlikely ((In0P->Head.msgh_size != 24) ||
	    (In0P->Head.msgh_bits & MACH_MSGH_BITS_COMPLEX)))
		{ OutP->RetCode = MIG_BAD_ARGUMENTS; return; }
#endif	/* TypeCheck */

	OutP->RetCode = do_store_report(In0P->Head.msgh_request_port, &OutP->entries, &OutP->bytes, &OutP->watchers, &OutP->opened);
	if (OutP->RetCode != KERN_SUCCESS)
		return;

	OutP->Head.msgh_size = 64;

	OutP->entriesType = entriesType;

	OutP->bytesType = bytesType;

	OutP->watchersType = watchersType;

	OutP->openedType = openedType;
}

/* Default implementation of do_store_report */
#ifdef	MIG_EOPNOTSUPP
kern_return_t __attribute__ ((weak))
do_store_report
(
	mach_port_t store,
	int *entries,
	int *bytes,
	int *watchers,
	int *opened
) { return MIG_EOPNOTSUPP; }
#endif	/* MIG_EOPNOTSUPP */

/* Routine store_put */
mig_internal void _Xstore_put
	(mach_msg_header_t *InHeadP, mach_msg_header_t *OutHeadP)
{
#pragma pack(push,4)
	typedef struct {
		mach_msg_header_t Head;
		mach_msg_type_t keyType;
		store_key_t key;
		mach_msg_type_t valueType;
		union {
			char value[1024];
			char *valueP;
		};
	} Request;
#pragma pack(pop)

#pragma pack(push,4)
	typedef struct {
		mach_msg_header_t Head;
		mach_msg_type_t RetCodeType;
		kern_return_t RetCode;
		mach_msg_type_t numberType;
		int number;
	} Reply;
#pragma pack(pop)

	Request *In0P = (Request *) InHeadP;
	Reply *OutP = (Reply *) OutHeadP;
	mig_external kern_return_t do_store_put
		(mach_port_t store, const_store_key_t key, const store_value_t value, mach_msg_type_number_t valueCnt, int *number);

	unsigned int msgh_size;

	const mach_msg_type_t keyCheck = {
		/* msgt_name = */		(unsigned char) MACH_MSG_TYPE_STRING_C,
		/* msgt_size = */		8,
		/* msgt_number = */		32,
		/* msgt_inline = */		TRUE,
		/* msgt_longform = */		FALSE,
		/* msgt_deallocate = */		FALSE,
		/* msgt_unused = */		0
	};

	const mach_msg_type_t numberType = {
		/* msgt_name = */		(unsigned char) MACH_MSG_TYPE_INTEGER_32,
		/* msgt_size = */		32,
		/* msgt_number = */		1,
		/* msgt_inline = */		TRUE,
		/* msgt_longform = */		FALSE,
		/* msgt_deallocate = */		FALSE,
		/* msgt_unused = */		0
	};
	_Static_assert(sizeof(int) == 4 * 1, "expected int to be size 4 * 1");

#if	TypeCheck
	msgh_size = In0P->Head.msgh_size;
	if (mig_unlikely ((msgh_size < 64) ||
	    (In0P->Head.msgh_bits & MACH_MSGH_BITS_COMPLEX)))
		{ OutP->RetCode = MIG_BAD_ARGUMENTS; return; }
#endif	/* TypeCheck */

#if	TypeCheck
	if (BAD_TYPECHECK(&In0P->keyType, &keyCheck))
		{ OutP->RetCode = MIG_BAD_ARGUMENTS; return; }
#endif	/* TypeCheck */

#if	TypeCheck
	if (mig_unlikely ((In0P->valueType.msgt_inline != TRUE) ||
	    (In0P->valueType.msgt_longform != FALSE) ||
	    (In0P->valueType.msgt_name != MACH_MSG_TYPE_CHAR) ||
	    (In0P->valueType.msgt_size != 8)))
		{ OutP->RetCode = MIG_BAD_ARGUMENTS; return; }
#endif	/* TypeCheck */

#if	TypeCheck
	if (mig_unlikely (msgh_size != 64 + ((In0P->valueType.msgt_number + 3) & ~3)))
		{ OutP->RetCode = MIG_BAD_ARGUMENTS; return; }
#endif	/* TypeCheck */

	OutP->RetCode = do_store_put(In0P->Head.msgh_request_port, In0P->key, In0P->value, In0P->valueType.msgt_number, &OutP->number);
	if (OutP->RetCode != KERN_SUCCESS)
		return;

	OutP->Head.msgh_size = 40;

	OutP->numberType = numberType;
}

/* Default implementation of do_store_put */
#ifdef	MIG_EOPNOTSUPP
kern_return_t __attribute__ ((weak))
do_store_put
(
	mach_port_t store,
	const_store_key_t key,
	const store_value_t value,
	mach_msg_type_number_t valueCnt,
	int *number
) { return MIG_EOPNOTSUPP; }
#endif	/* MIG_EOPNOTSUPP */

/* Routine store_get */
mig_internal void _Xstore_get
	(mach_msg_header_t *InHeadP, mach_msg_header_t *OutHeadP)
{
#pragma pack(push,4)
	typedef struct {
		mach_msg_header_t Head;
		mach_msg_type_t keyType;
		store_key_t key;
	} Request;
#pragma pack(pop)

#pragma pack(push,4)
	typedef struct {
		mach_msg_header_t Head;
		mach_msg_type_t RetCodeType;
		kern_return_t RetCode;
		mach_msg_type_t valueType;
		union {
			char value[1024];
			char *valueP;
		};
	} Reply;
#pragma pack(pop)

	Request *In0P = (Request *) InHeadP;
	Reply *OutP = (Reply *) OutHeadP;
	mig_external kern_return_t do_store_get
		(mach_port_t store, const_store_key_t key, store_value_t value, mach_msg_type_number_t *valueCnt);

	const mach_msg_type_t keyCheck = {
		/* msgt_name = */		(unsigned char) MACH_MSG_TYPE_STRING_C,
		/* msgt_size = */		8,
		/* msgt_number = */		32,
		/* msgt_inline = */		TRUE,
		/* msgt_longform = */		FALSE,
		/* msgt_deallocate = */		FALSE,
		/* msgt_unused = */		0
	};

	const mach_msg_type_t valueType = {
		/* msgt_name = */		(unsigned char) MACH_MSG_TYPE_CHAR,
		/* msgt_size = */		8,
		/* msgt_number = */		1024,
		/* msgt_inline = */		TRUE,
		/* msgt_longform = */		FALSE,
		/* msgt_deallocate = */		FALSE,
		/* msgt_unused = */		0
	};

	mach_msg_type_number_t valueCnt;

#if	TypeCheck
	if (mig_unlikely ((In0P->Head.msgh_size != 60) ||
	    (In0P->Head.msgh_bits & MACH_MSGH_BITS_COMPLEX)))
		{ OutP->RetCode = MIG_BAD_ARGUMENTS; return; }
#endif	/* TypeCheck */

#if	TypeCheck
	if (BAD_TYPECHECK(&In0P->keyType, &keyCheck))
		{ OutP->RetCode = MIG_BAD_ARGUMENTS; return; }
#endif	/* TypeCheck */

	valueCnt = 1024;

	OutP->RetCode = do_store_get(In0P->Head.msgh_request_port, In0P->key, OutP->value, &valueCnt);
	if (OutP->RetCode != KERN_SUCCESS)
		return;

	OutP->valueType = valueType;

	OutP->valueType.msgt_number = valueCnt;
	OutP->Head.msgh_size = 36 + ((valueCnt + 3) & ~3);
}

/* Default implementation of do_store_get */
#ifdef	MIG_EOPNOTSUPP
kern_return_t __attribute__ ((weak))
do_store_get
(
	mach_port_t store,
	const_store_key_t key,
	store_value_t value,
	mach_msg_type_number_t *valueCnt
) { return MIG_EOPNOTSUPP; }
#endif	/* MIG_EOPNOTSUPP */

/* Routine store_get_part */
mig_internal void _Xstore_get_part
	(mach_msg_header_t *InHeadP, mach_msg_header_t *OutHeadP)
{
#pragma pack(push,4)
	typedef struct {
		mach_msg_header_t Head;
		mach_msg_type_t numberType;
		int number;
		mach_msg_type_t firstType;
		int first;
		mach_msg_type_t lengthType;
		int length;
	} Request;
#pragma pack(pop)

#pragma pack(push,4)
	typedef struct {
		mach_msg_header_t Head;
		mach_msg_type_t RetCodeType;
		kern_return_t RetCode;
		mach_msg_type_t valueType;
		union {
			char value[1024];
			char *valueP;
		};
	} Reply;
#pragma pack(pop)

	Request *In0P = (Request *) InHeadP;
	Reply *OutP = (Reply *) OutHeadP;
	mig_external kern_return_t do_store_get_part
		(mach_port_t store, int number, int first, int length, store_value_t value, mach_msg_type_number_t *valueCnt);

	const mach_msg_type_t numberCheck = {
		/* msgt_name = */		(unsigned char) MACH_MSG_TYPE_INTEGER_32,
		/* msgt_size = */		32,
		/* msgt_number = */		1,
		/* msgt_inline = */		TRUE,
		/* msgt_longform = */		FALSE,
		/* msgt_deallocate = */		FALSE,
		/* msgt_unused = */		0
	};

	const mach_msg_type_t firstCheck = {
		/* msgt_name = */		(unsigned char) MACH_MSG_TYPE_INTEGER_32,
		/* msgt_size = */		32,
		/* msgt_number = */		1,
		/* msgt_inline = */		TRUE,
		/* msgt_longform = */		FALSE,
		/* msgt_deallocate = */		FALSE,
		/* msgt_unused = */		0
	};

	const mach_msg_type_t lengthCheck = {
		/* msgt_name = */		(unsigned char) MACH_MSG_TYPE_INTEGER_32,
		/* msgt_size = */		32,
		/* msgt_number = */		1,
		/* msgt_inline = */		TRUE,
		/* msgt_longform = */		FALSE,
		/* msgt_deallocate = */		FALSE,
		/* msgt_unused = */		0
	};

	const mach_msg_type_t valueType = {
		/* msgt_name = */		(unsigned char) MACH_MSG_TYPE_CHAR,
		/* msgt_size = */		8,
		/* msgt_number = */		1024,
		/* msgt_inline = */		TRUE,
		/* msgt_longform = */		FALSE,
		/* msgt_deallocate = */		FALSE,
		/* msgt_unused = */		0
	};

	mach_msg_type_number_t valueCnt;

#if	TypeCheck
	if (mig_unlikely ((In0P->Head.msgh_size != 48) ||
	    (In0P->Head.msgh_bits & MACH_MSGH_BITS_COMPLEX)))
		{ OutP->RetCode = MIG_BAD_ARGUMENTS; return; }
#endif	/* TypeCheck */

#if	TypeCheck
	if (BAD_TYPECHECK(&In0P->numberType, &numberCheck))
		{ OutP->RetCode = MIG_BAD_ARGUMENTS; return; }
#endif	/* TypeCheck */

#if	TypeCheck
	if (BAD_TYPECHECK(&In0P->firstType, &firstCheck))
		{ OutP->RetCode = MIG_BAD_ARGUMENTS; return; }
#endif	/* TypeCheck */

#if	TypeCheck
	if (BAD_TYPECHECK(&In0P->lengthType, &lengthCheck))
		{ OutP->RetCode = MIG_BAD_ARGUMENTS; return; }
#endif	/* TypeCheck */

	valueCnt = 1024;

	OutP->RetCode = do_store_get_part(In0P->Head.msgh_request_port, In0P->number, In0P->first, In0P->length, OutP->value, &valueCnt);
	if (OutP->RetCode != KERN_SUCCESS)
		return;

	OutP->valueType = valueType;

	OutP->valueType.msgt_number = valueCnt;
	OutP->Head.msgh_size = 36 + ((valueCnt + 3) & ~3);
}

/* Default implementation of do_store_get_part */
#ifdef	MIG_EOPNOTSUPP
kern_return_t __attribute__ ((weak))
do_store_get_part
(
	mach_port_t store,
	int number,
	int first,
	int length,
	store_value_t value,
	mach_msg_type_number_t *valueCnt
) { return MIG_EOPNOTSUPP; }
#endif	/* MIG_EOPNOTSUPP */

/* Routine store_lengths */
mig_internal void _Xstore_lengths
	(mach_msg_header_t *InHeadP, mach_msg_header_t *OutHeadP)
{
#pragma pack(push,4)
	typedef struct {
		mach_msg_header_t Head;
		mach_msg_type_t numbersType;
		union {
			natural_t numbers[16];
			natural_t *numbersP;
		};
	} Request;
#pragma pack(pop)

#pragma pack(push,4)
	typedef struct {
		mach_msg_header_t Head;
		mach_msg_type_t RetCodeType;
		kern_return_t RetCode;
		mach_msg_type_t lengthsType;
		union {
			natural_t lengths[16];
			natural_t *lengthsP;
		};
	} Reply;
#pragma pack(pop)

	Request *In0P = (Request *) InHeadP;
	Reply *OutP = (Reply *) OutHeadP;
	mig_external kern_return_t do_store_lengths
		(mach_port_t store, const store_numbers_t numbers, mach_msg_type_number_t numbersCnt, store_numbers_t lengths, mach_msg_type_number_t *lengthsCnt);

	unsigned int msgh_size;

	const mach_msg_type_t lengthsType = {
		/* msgt_name = */		(unsigned char) MACH_MSG_TYPE_INTEGER_32,
		/* msgt_size = */		32,
		/* msgt_number = */		16,
		/* msgt_inline = */		TRUE,
		/* msgt_longform = */		FALSE,
		/* msgt_deallocate = */		FALSE,
		/* msgt_unused = */		0
	};

	mach_msg_type_number_t lengthsCnt;

#if	TypeCheck
	msgh_size = In0P->Head.msgh_size;
	if (mig_unlikely ((msgh_size < 28) ||
	    (In0P->Head.msgh_bits & MACH_MSGH_BITS_COMPLEX)))
		{ OutP->RetCode = MIG_BAD_ARGUMENTS; return; }
#endif	/* TypeCheck */

#if	TypeCheck
	if (mig_unlikely ((In0P->numbersType.msgt_inline != TRUE) ||
	    (In0P->numbersType.msgt_longform != FALSE) ||
	    (In0P->numbersType.msgt_name != MACH_MSG_TYPE_INTEGER_32) ||
	    (In0P->numbersType.msgt_size != 32)))
		{ OutP->RetCode = MIG_BAD_ARGUMENTS; return; }
#endif	/* TypeCheck */

#if	TypeCheck
	if (mig_unlikely (msgh_size != 28 + (4 * In0P->numbersType.msgt_number)))
		{ OutP->RetCode = MIG_BAD_ARGUMENTS; return; }
#endif	/* TypeCheck */

	lengthsCnt = 16;

	OutP->RetCode = do_store_lengths(In0P->Head.msgh_request_port, In0P->numbers, In0P->numbersType.msgt_number, OutP->lengths, &lengthsCnt);
	if (OutP->RetCode != KERN_SUCCESS)
		return;

	OutP->lengthsType = lengthsType;

	OutP->lengthsType.msgt_number = lengthsCnt;
	OutP->Head.msgh_size = 36 + (4 * lengthsCnt);
}

/* Default implementation of do_store_lengths */
#ifdef	MIG_EOPNOTSUPP
kern_return_t __attribute__ ((weak))
do_store_lengths
(
	mach_port_t store,
	const store_numbers_t numbers,
	mach_msg_type_number_t numbersCnt,
	store_numbers_t lengths,
	mach_msg_type_number_t *lengthsCnt
) { return MIG_EOPNOTSUPP; }
#endif	/* MIG_EOPNOTSUPP */

/* Routine store_watch */
mig_internal void _Xstore_watch
	(mach_msg_header_t *InHeadP, mach_msg_header_t *OutHeadP)
{
#pragma pack(push,4)
	typedef struct {
		mach_msg_header_t Head;
		mach_msg_type_t keyType;
		store_key_t key;
		mach_msg_type_t watcherType;
		mach_port_t watcher;
	} Request;
#pragma pack(pop)

#pragma pack(push,4)
	typedef struct {
		mach_msg_header_t Head;
		mach_msg_type_t RetCodeType;
		kern_return_t RetCode;
	} Reply;
#pragma pack(pop)

	Request *In0P = (Request *) InHeadP;
	Reply *OutP = (Reply *) OutHeadP;
	mig_external kern_return_t do_store_watch
		(mach_port_t store, const_store_key_t key, mach_port_t watcher);

	const mach_msg_type_t keyCheck = {
		/* msgt_name = */		(unsigned char) MACH_MSG_TYPE_STRING_C,
		/* msgt_size = */		8,
		/* msgt_number = */		32,
		/* msgt_inline = */		TRUE,
		/* msgt_longform = */		FALSE,
		/* msgt_deallocate = */		FALSE,
		/* msgt_unused = */		0
	};

	const mach_msg_type_t watcherCheck = {
		/* msgt_name = */		(unsigned char) MACH_MSG_TYPE_PORT_SEND,
		/* msgt_size = */		32,
		/* msgt_number = */		1,
		/* msgt_inline = */		TRUE,
		/* msgt_longform = */		FALSE,
		/* msgt_deallocate = */		FALSE,
		/* msgt_unused = */		0
	};

#if	TypeCheck
	if (mig_unlikely ((In0P->Head.msgh_size != 68) ||
	    !(In0P->Head.msgh_bits & MACH_MSGH_BITS_COMPLEX)))
		{ OutP->RetCode = MIG_BAD_ARGUMENTS; return; }
#endif	/* TypeCheck */

#if	TypeCheck
	if (BAD_TYPECHECK(&In0P->keyType, &keyCheck))
		{ OutP->RetCode = MIG_BAD_ARGUMENTS; return; }
#endif	/* TypeCheck */

#if	TypeCheck
	if (BAD_TYPECHECK(&In0P->watcherType, &watcherCheck))
		{ OutP->RetCode = MIG_BAD_ARGUMENTS; return; }
#endif	/* TypeCheck */

	OutP->RetCode = do_store_watch(In0P->Head.msgh_request_port, In0P->key, In0P->watcher);
}

/* Default implementation of do_store_watch */
#ifdef	MIG_EOPNOTSUPP
kern_return_t __attribute__ ((weak))
do_store_watch
(
	mach_port_t store,
	const_store_key_t key,
	mach_port_t watcher
) { return MIG_EOPNOTSUPP; }
#endif	/* MIG_EOPNOTSUPP */

/* Routine store_open */
mig_internal void _Xstore_open
	(mach_msg_header_t *InHeadP, mach_msg_header_t *OutHeadP)
{
#pragma pack(push,4)
	typedef struct {
		mach_msg_header_t Head;
		mach_msg_type_t keyType;
		store_key_t key;
	} Request;
#pragma pack(pop)

#pragma pack(push,4)
	typedef struct {
		mach_msg_header_t Head;
		mach_msg_type_t RetCodeType;
		kern_return_t RetCode;
		mach_msg_type_t entryType;
		mach_port_t entry;
	} Reply;
#pragma pack(pop)

	Request *In0P = (Request *) InHeadP;
	Reply *OutP = (Reply *) OutHeadP;
	mig_external kern_return_t do_store_open
		(mach_port_t store, const_store_key_t key, mach_port_t *entry);

	const mach_msg_type_t keyCheck = {
		/* msgt_name = */		(unsigned char) MACH_MSG_TYPE_STRING_C,
		/* msgt_size = */		8,
		/* msgt_number = */		32,
		/* msgt_inline = */		TRUE,
		/* msgt_longform = */		FALSE,
		/* msgt_deallocate = */		FALSE,
		/* msgt_unused = */		0
	};

	const mach_msg_type_t entryType = {
		/* msgt_name = */		(unsigned char) MACH_MSG_TYPE_MAKE_SEND,
		/* msgt_size = */		32,
		/* msgt_number = */		1,
		/* msgt_inline = */		TRUE,
		/* msgt_longform = */		FALSE,
		/* msgt_deallocate = */		FALSE,
		/* msgt_unused = */		0
	};
	_Static_assert(sizeof(mach_port_t) == 4 * 1, "expected mach_port_t to be size 4 * 1");

#if	TypeCheck
	if (mig_unlikely ((In0P->Head.msgh_size != 60) ||
	    (In0P->Head.msgh_bits & MACH_MSGH_BITS_COMPLEX)))
		{ OutP->RetCode = MIG_BAD_ARGUMENTS; return; }
#endif	/* TypeCheck */

#if	TypeCheck
	if (BAD_TYPECHECK(&In0P->keyType, &keyCheck))
		{ OutP->RetCode = MIG_BAD_ARGUMENTS; return; }
#endif	/* TypeCheck */

	OutP->RetCode = do_store_open(In0P->Head.msgh_request_port, In0P->key, &OutP->entry);
	if (OutP->RetCode != KERN_SUCCESS)
		return;

	OutP->Head.msgh_bits |= MACH_MSGH_BITS_COMPLEX;
	OutP->Head.msgh_size = 40;

	OutP->entryType = entryType;
}

/* Default implementation of do_store_open */
#ifdef	MIG_EOPNOTSUPP
kern_return_t __attribute__ ((weak))
do_store_open
(
	mach_port_t store,
	const_store_key_t key,
	mach_port_t *entry
) { return MIG_EOPNOTSUPP; }
#endif	/* MIG_EOPNOTSUPP */

/* Routine entry_append */
mig_internal void _Xentry_append
	(mach_msg_header_t *InHeadP, mach_msg_header_t *OutHeadP)
{
#pragma pack(push,4)
	typedef struct {
		mach_msg_header_t Head;
		mach_msg_type_t valueType;
		union {
			char value[1024];
			char *valueP;
		};
	} Request;
#pragma pack(pop)

#pragma pack(push,4)
	typedef struct {
		mach_msg_header_t Head;
		mach_msg_type_t RetCodeType;
		kern_return_t RetCode;
		mach_msg_type_t lengthType;
		int length;
	} Reply;
#pragma pack(pop)

	Request *In0P = (Request *) InHeadP;
	Reply *OutP = (Reply *) OutHeadP;
	mig_external kern_return_t do_entry_append
		(mach_port_t entry, const store_value_t value, mach_msg_type_number_t valueCnt, int *length);

	unsigned int msgh_size;

	const mach_msg_type_t lengthType = {
		/* msgt_name = */		(unsigned char) MACH_MSG_TYPE_INTEGER_32,
		/* msgt_size = */		32,
		/* msgt_number = */		1,
		/* msgt_inline = */		TRUE,
		/* msgt_longform = */		FALSE,
		/* msgt_deallocate = */		FALSE,
		/* msgt_unused = */		0
	};
	_Static_assert(sizeof(int) == 4 * 1, "expected int to be size 4 * 1");

#if	TypeCheck
	msgh_size = In0P->Head.msgh_size;
	if (mig_unlikely ((msgh_size < 28) ||
	    (In0P->Head.msgh_bits & MACH_MSGH_BITS_COMPLEX)))
		{ OutP->RetCode = MIG_BAD_ARGUMENTS; return; }
#endif	/* TypeCheck */

#if	TypeCheck
	if (mig_unlikely ((In0P->valueType.msgt_inline != TRUE) ||
	    (In0P->valueType.msgt_longform != FALSE) ||
	    (In0P->valueType.msgt_name != MACH_MSG_TYPE_CHAR) ||
	    (In0P->valueType.msgt_size != 8)))
		{ OutP->RetCode = MIG_BAD_ARGUMENTS; return; }
#endif	/* TypeCheck */

#if	TypeCheck
	if (mig_unlikely (msgh_size != 28 + ((In0P->valueType.msgt_number + 3) & ~3)))
		{ OutP->RetCode = MIG_BAD_ARGUMENTS; return; }
#endif	/* TypeCheck */

	OutP->RetCode = do_entry_append(In0P->Head.msgh_request_port, In0P->value, In0P->valueType.msgt_number, &OutP->length);
	if (OutP->RetCode != KERN_SUCCESS)
		return;

	OutP->Head.msgh_size = 40;

	OutP->lengthType = lengthType;
}

/* Default implementation of do_entry_append */
#ifdef	MIG_EOPNOTSUPP
kern_return_t __attribute__ ((weak))
do_entry_append
(
	mach_port_t entry,
	const store_value_t value,
	mach_msg_type_number_t valueCnt,
	int *length
) { return MIG_EOPNOTSUPP; }
#endif	/* MIG_EOPNOTSUPP */

/* Routine store_adopt */
mig_internal void _Xstore_adopt
	(mach_msg_header_t *InHeadP, mach_msg_header_t *OutHeadP)
{
#pragma pack(push,4)
	typedef struct {
		mach_msg_header_t Head;
		mach_msg_type_t serviceType;
		mach_port_t service;
	} Request;
#pragma pack(pop)

#pragma pack(push,4)
	typedef struct {
		mach_msg_header_t Head;
		mach_msg_type_t RetCodeType;
		kern_return_t RetCode;
	} Reply;
#pragma pack(pop)

	Request *In0P = (Request *) InHeadP;
	Reply *OutP = (Reply *) OutHeadP;
	mig_external kern_return_t do_store_adopt
		(mach_port_t store, mach_port_t service);

	const mach_msg_type_t serviceCheck = {
		/* msgt_name = */		(unsigned char) MACH_MSG_TYPE_PORT_RECEIVE,
		/* msgt_size = */		32,
		/* msgt_number = */		1,
		/* msgt_inline = */		TRUE,
		/* msgt_longform = */		FALSE,
		/* msgt_deallocate = */		FALSE,
		/* msgt_unused = */		0
	};

#if	TypeCheck
	if (mig_unlikely ((In0P->Head.msgh_size != 32) ||
	    !(In0P->Head.msgh_bits & MACH_MSGH_BITS_COMPLEX)))
		{ OutP->RetCode = MIG_BAD_ARGUMENTS; return; }
#endif	/* TypeCheck */

#if	TypeCheck
	if (BAD_TYPECHECK(&In0P->serviceType, &serviceCheck))
		{ OutP->RetCode = MIG_BAD_ARGUMENTS; return; }
#endif	/* TypeCheck */

	OutP->RetCode = do_store_adopt(In0P->Head.msgh_request_port, In0P->service);
}

/* Default implementation of do_store_adopt */
#ifdef	MIG_EOPNOTSUPP
kern_return_t __attribute__ ((weak))
do_store_adopt
(
	mach_port_t store,
	mach_port_t service
) { return MIG_EOPNOTSUPP; }
#endif	/* MIG_EOPNOTSUPP */

/* Routine store_exchange */
mig_internal void _Xstore_exchange
	(mach_msg_header_t *InHeadP, mach_msg_header_t *OutHeadP)
{
#pragma pack(push,4)
	typedef struct {
		mach_msg_header_t Head;
		mach_msg_type_t givenType;
		mach_port_t given;
	} Request;
#pragma pack(pop)

#pragma pack(push,4)
	typedef struct {
		mach_msg_header_t Head;
		mach_msg_type_t RetCodeType;
		kern_return_t RetCode;
		mach_msg_type_t beforeType;
		mach_port_t before;
	} Reply;
#pragma pack(pop)

	Request *In0P = (Request *) InHeadP;
	Reply *OutP = (Reply *) OutHeadP;
	mig_external kern_return_t do_store_exchange
		(mach_port_t store, mach_port_t given, mach_msg_type_name_t givenPoly, mach_port_t *before);

#if	TypeCheck
	boolean_t msgh_simple = msgh_simple;
#endif	/* TypeCheck */

	const mach_msg_type_t beforeType = {
		/* msgt_name = */		(unsigned char) MACH_MSG_TYPE_MOVE_SEND,
		/* msgt_size = */		32,
		/* msgt_number = */		1,
		/* msgt_inline = */		TRUE,
		/* msgt_longform = */		FALSE,
		/* msgt_deallocate = */		FALSE,
		/* msgt_unused = */		0
	};
	_Static_assert(sizeof(mach_port_t) == 4 * 1, "expected mach_port_t to be size 4 * 1");

#if	TypeCheck
	msgh_simple = !(In0P->Head.msgh_bits & MACH_MSGH_BITS_COMPLEX);
	if (mig_unlikely ((In0P->Head.msgh_size != 32)))
		{ OutP->RetCode = MIG_BAD_ARGUMENTS; return; }
#endif	/* TypeCheck */

#if	TypeCheck
	if (mig_unlikely ((In0P->givenType.msgt_inline != TRUE) ||
	    (In0P->givenType.msgt_longform != FALSE) ||
	    (MACH_MSG_TYPE_PORT_ANY(In0P->givenType.msgt_name) && msgh_simple) ||
	    (In0P->givenType.msgt_number != 1) ||
	    (In0P->givenType.msgt_size != 32)))
		{ OutP->RetCode = MIG_BAD_ARGUMENTS; return; }
#endif	/* TypeCheck */

	OutP->RetCode = do_store_exchange(In0P->Head.msgh_request_port, In0P->given, In0P->givenType.msgt_name, &OutP->before);
	if (OutP->RetCode != KERN_SUCCESS)
		return;

	OutP->Head.msgh_bits |= MACH_MSGH_BITS_COMPLEX;
	OutP->Head.msgh_size = 40;

	OutP->beforeType = beforeType;
}

/* Default implementation of do_store_exchange */
#ifdef	MIG_EOPNOTSUPP
kern_return_t __attribute__ ((weak))
do_store_exchange
(
	mach_port_t store,
	mach_port_t given,
	mach_msg_type_name_t givenPoly,
	mach_port_t *before
) { return MIG_EOPNOTSUPP; }
#endif	/* MIG_EOPNOTSUPP */

/* SimpleRoutine store_remove */
mig_internal void _Xstore_remove
	(mach_msg_header_t *InHeadP, mach_msg_header_t *OutHeadP)
{
#pragma pack(push,4)
	typedef struct {
		mach_msg_header_t Head;
		mach_msg_type_t keyType;
		store_key_t key;
	} Request;
#pragma pack(pop)

#pragma pack(push,4)
	typedef struct {
		mach_msg_header_t Head;
		mach_msg_type_t RetCodeType;
		kern_return_t RetCode;
	} Reply;
#pragma pack(pop)

	Request *In0P = (Request *) InHeadP;
	Reply *OutP = (Reply *) OutHeadP;
	mig_external kern_return_t do_store_remove
		(mach_port_t store, const_store_key_t key);

	const mach_msg_type_t keyCheck = {
		/* msgt_name = */		(unsigned char) MACH_MSG_TYPE_STRING_C,
		/* msgt_size = */		8,
		/* msgt_number = */		32,
		/* msgt_inline = */		TRUE,
		/* msgt_longform = */		FALSE,
		/* msgt_deallocate = */		FALSE,
		/* msgt_unused = */		0
	};

#if	TypeCheck
	if (mig_unlikely ((In0P->Head.msgh_size != 60) ||
	    (In0P->Head.msgh_bits & MACH_MSGH_BITS_COMPLEX)))
		{ OutP->RetCode = MIG_BAD_ARGUMENTS; return; }
#endif	/* TypeCheck */

#if	TypeCheck
	if (BAD_TYPECHECK(&In0P->keyType, &keyCheck))
		{ OutP->RetCode = MIG_BAD_ARGUMENTS; return; }
#endif	/* TypeCheck */

	OutP->RetCode = do_store_remove(In0P->Head.msgh_request_port, In0P->key);
}

/* Default implementation of do_store_remove */
#ifdef	MIG_EOPNOTSUPP
kern_return_t __attribute__ ((weak))
do_store_remove
(
	mach_port_t store,
	const_store_key_t key
) { return MIG_EOPNOTSUPP; }
#endif	/* MIG_EOPNOTSUPP */

/* Routine store_sleep */
mig_internal void _Xstore_sleep
	(mach_msg_header_t *InHeadP, mach_msg_header_t *OutHeadP)
{
#pragma pack(push,4)
	typedef struct {
		mach_msg_header_t Head;
		mach_msg_type_t millisecondsType;
		int milliseconds;
	} Request;
#pragma pack(pop)

#pragma pack(push,4)
	typedef struct {
		mach_msg_header_t Head;
		mach_msg_type_t RetCodeType;
		kern_return_t RetCode;
	} Reply;
#pragma pack(pop)

	Request *In0P = (Request *) InHeadP;
	Reply *OutP = (Reply *) OutHeadP;
	mig_external kern_return_t do_store_sleep
		(mach_port_t store, int milliseconds);

	const mach_msg_type_t millisecondsCheck = {
		/* msgt_name = */		(unsigned char) MACH_MSG_TYPE_INTEGER_32,
		/* msgt_size = */		32,
		/* msgt_number = */		1,
		/* msgt_inline = */		TRUE,
		/* msgt_longform = */		FALSE,
		/* msgt_deallocate = */		FALSE,
		/* msgt_unused = */		0
	};

#if	TypeCheck
	if (mig_unlikely ((In0P->Head.msgh_size != 32) ||
	    (In0P->Head.msgh_bits & MACH_MSGH_BITS_COMPLEX)))
		{ OutP->RetCode = MIG_BAD_ARGUMENTS; return; }
#endif	/* TypeCheck */

#if	TypeCheck
	if (BAD_TYPECHECK(&In0P->millisecondsType, &millisecondsCheck))
		{ OutP->RetCode = MIG_BAD_ARGUMENTS; return; }
#endif	/* TypeCheck */

	OutP->RetCode = do_store_sleep(In0P->Head.msgh_request_port, In0P->milliseconds);
}

/* Default implementation of do_store_sleep */
#ifdef	MIG_EOPNOTSUPP
kern_return_t __attribute__ ((weak))
do_store_sleep
(
	mach_port_t store,
	int milliseconds
) { return MIG_EOPNOTSUPP; }
#endif	/* MIG_EOPNOTSUPP */

mig_routine_t store_server_routines[] = {
		_Xstore_report,
		_Xstore_put,
		_Xstore_get,
		_Xstore_get_part,
		_Xstore_lengths,
		_Xstore_watch,
		_Xstore_open,
		_Xentry_append,
		_Xstore_adopt,
		_Xstore_exchange,
		_Xstore_remove,
		_Xstore_sleep,
};

mig_external boolean_t store_server
	(mach_msg_header_t *InHeadP, mach_msg_header_t *OutHeadP)
{
	mach_msg_header_t *InP =  InHeadP;
	mig_reply_header_t *OutP = (mig_reply_header_t *) OutHeadP;

	const mach_msg_type_t RetCodeType = {
		/* msgt_name = */		(unsigned char) MACH_MSG_TYPE_INTEGER_32,
		/* msgt_size = */		32,
		/* msgt_number = */		1,
		/* msgt_inline = */		TRUE,
		/* msgt_longform = */		FALSE,
		/* msgt_deallocate = */		FALSE,
		/* msgt_unused = */		0
	};
	_Static_assert(sizeof(kern_return_t) == 4 * 1, "expected kern_return_t to be size 4 * 1");

	mig_routine_t routine;

	OutP->Head.msgh_bits = MACH_MSGH_BITS(MACH_MSGH_BITS_REPLY(InP->msgh_bits), 0);
	OutP->Head.msgh_size = sizeof *OutP;
	OutP->Head.msgh_remote_port = InP->msgh_reply_port;
	OutP->Head.msgh_local_port = MACH_PORT_NULL;
	OutP->Head.msgh_seqno = 0;
	OutP->Head.msgh_id = InP->msgh_id + 100;

	OutP->RetCodeType = RetCodeType;

	if ((InP->msgh_id > 50011) || (InP->msgh_id < 50000) ||
	    ((routine = store_server_routines[InP->msgh_id - 50000]) == 0)) {
		OutP->RetCode = MIG_BAD_ID;
		return FALSE;
	}
	(*routine) (InP, &OutP->Head);
	return TRUE;
}

