/* Names of codes. */
#ifndef _MACH_MACH_ERROR_H_
#define _MACH_MACH_ERROR_H_

#include <mach/kern_return.h>

#ifdef __cplusplus
extern "C" {
#endif

typedef kern_return_t mach_error_t;

/* The code's name, such as "KERN_INVALID_NAME". It stays until the thread calls it again. */
char *mach_error_string(mach_error_t error_value);

#ifdef __cplusplus
}
#endif

#endif
