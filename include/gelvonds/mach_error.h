/* As <mach/mach_error.h>. */
#ifndef _MACH_ERROR_H
#define _MACH_ERROR_H

#include <mach/mach_error.h>

#endif
