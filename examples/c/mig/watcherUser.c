#ifndef _GNU_SOURCE
#define _GNU_SOURCE 1
#endif

#include "watcher.h"
#define EXPORT_BOOLEAN
#include <mach/boolean.h>
#include <mach/kern_return.h>
#include <mach/message.h>
#include <mach/notify.h>
#include <mach/mach_types.h>
#include <mach/mig_errors.h>
#include <mach/mig_support.h>
#include <stdint.h>

#ifndef	mig_internal
#define	mig_internal	static
#endif

#ifndef	mig_external
#define mig_external
#endif

#ifndef	mig_unlikely
#define	mig_unlikely(X)	__builtin_expect (!! (X), 0)
#endif

#ifndef	TypeCheck
#define	TypeCheck 1
#endif

#ifndef	UseExternRCSId
#define	UseExternRCSId		1
#endif

#define BAD_TYPECHECK(type, check) mig_unlikely (({\
  union { mach_msg_type_t t; uint32_t w; } _t, _c;\
  _t.t = *(type); _c.t = *(check);_t.w != _c.w; }))
#define msgh_request_port	msgh_remote_port
#define msgh_reply_port		msgh_local_port

#include <mach/std_types.h>
#include "store_types.h"

/* SimpleRoutine watcher_changed */
mig_external kern_return_t watcher_changed
(
	mach_port_t watcher,
	const_store_key_t key,
	int length
)
{
#pragma pack(push,4)
	typedef struct {
		mach_msg_header_t Head;
		mach_msg_type_t keyType;
		store_key_t key;
		mach_msg_type_t lengthType;
		int length;
	} Request;
#pragma pack(pop)

	union {
		Request In;
	} Mess;

	Request *InP = &Mess.In;


	const mach_msg_type_t keyType = {
		/* msgt_name = */		(unsigned char) MACH_MSG_TYPE_STRING_C,
		/* msgt_size = */		8,
		/* msgt_number = */		32,
		/* msgt_inline = */		TRUE,
		/* msgt_longform = */		FALSE,
		/* msgt_deallocate = */		FALSE,
		/* msgt_unused = */		0
	};
	_Static_assert(sizeof(store_key_t) == 1 * 32, "expected store_key_t to be size 1 * 32");

	const mach_msg_type_t lengthType = {
		/* msgt_name = */		(unsigned char) MACH_MSG_TYPE_INTEGER_32,
		/* msgt_size = */		32,
		/* msgt_number = */		1,
		/* msgt_inline = */		TRUE,
		/* msgt_longform = */		FALSE,
		/* msgt_deallocate = */		FALSE,
		/* msgt_unused = */		0
	};
	_Static_assert(sizeof(int) == 4 * 1, "expected int to be size 4 * 1");

	InP->keyType = keyType;

	(void) mig_strncpy(InP->key, key, 32);

	InP->lengthType = lengthType;

	InP->length = length;

	InP->Head.msgh_bits =
		MACH_MSGH_BITS(MACH_MSG_TYPE_COPY_SEND, 0);
	/* msgh_size filled below */
	InP->Head.msgh_request_port = watcher;
	InP->Head.msgh_reply_port = MACH_PORT_NULL;
	InP->Head.msgh_seqno = 0;
	InP->Head.msgh_id = 50200;

	_Static_assert(sizeof(Request) == 68, "Request expected to be 68 bytes");
	InP->Head.msgh_size = 68;

	return mach_msg(&InP->Head, MACH_SEND_MSG|MACH_MSG_OPTION_NONE, 68, 0, MACH_PORT_NULL, MACH_MSG_TIMEOUT_NONE, MACH_PORT_NULL);
}

/* SimpleRoutine watcher_removed */
mig_external kern_return_t watcher_removed
(
	mach_port_t watcher,
	const_store_key_t key
)
{
#pragma pack(push,4)
	typedef struct {
		mach_msg_header_t Head;
		mach_msg_type_t keyType;
		store_key_t key;
	} Request;
#pragma pack(pop)

	union {
		Request In;
	} Mess;

	Request *InP = &Mess.In;


	const mach_msg_type_t keyType = {
		/* msgt_name = */		(unsigned char) MACH_MSG_TYPE_STRING_C,
		/* msgt_size = */		8,
		/* msgt_number = */		32,
		/* msgt_inline = */		TRUE,
		/* msgt_longform = */		FALSE,
		/* msgt_deallocate = */		FALSE,
		/* msgt_unused = */		0
	};
	_Static_assert(sizeof(store_key_t) == 1 * 32, "expected store_key_t to be size 1 * 32");

	InP->keyType = keyType;

	(void) mig_strncpy(InP->key, key, 32);

	InP->Head.msgh_bits =
		MACH_MSGH_BITS(MACH_MSG_TYPE_COPY_SEND, 0);
	/* msgh_size filled below */
	InP->Head.msgh_request_port = watcher;
	InP->Head.msgh_reply_port = MACH_PORT_NULL;
	InP->Head.msgh_seqno = 0;
	InP->Head.msgh_id = 50201;

	_Static_assert(sizeof(Request) == 60, "Request expected to be 60 bytes");
	InP->Head.msgh_size = 60;

	return mach_msg(&InP->Head, MACH_SEND_MSG|MACH_MSG_OPTION_NONE, 60, 0, MACH_PORT_NULL, MACH_MSG_TIMEOUT_NONE, MACH_PORT_NULL);
}
