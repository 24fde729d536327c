/* As <mach/mach.h>. */
#ifndef _MACH_H
#define _MACH_H

#include <mach/mach.h>

#endif
