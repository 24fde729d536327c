/* What MIG's stubs return besides Mach's codes, and the head of each reply. */
#ifndef _MACH_MIG_ERRORS_H_
#define _MACH_MIG_ERRORS_H_

#include <mach/kern_return.h>
#include <mach/message.h>

#define MIG_TYPE_ERROR -300      /* a message of the wrong types or length */
#define MIG_REPLY_MISMATCH -301  /* a reply with another id */
#define MIG_REMOTE_ERROR -302    /* the server told an error */
#define MIG_BAD_ID -303          /* a request with an id of no routine */
#define MIG_BAD_ARGUMENTS -304   /* a request of the wrong types or length */
#define MIG_NO_REPLY -305        /* the server's routine sends no reply, or sends it later */
#define MIG_EXCEPTION -306
#define MIG_ARRAY_TOO_LARGE -307 /* an array longer than the room for it */
#define MIG_SERVER_DIED -308     /* the reply right was lost */
#define MIG_DESTROY_REQUEST -309 /* no reply, and the request's rights are to be given up */

typedef struct {
    mach_msg_header_t Head;
    mach_msg_type_t RetCodeType;
    kern_return_t RetCode;
} mig_reply_header_t;

typedef struct mig_symtab {
    char *ms_routine_name;
    int ms_routine_number;
    void (*ms_routine)(void);
} mig_symtab_t;

typedef void (*mig_routine_t)(mach_msg_header_t *request, mach_msg_header_t *reply);

#endif
