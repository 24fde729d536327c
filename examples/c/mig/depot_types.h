/* The types of depot.defs, for C. MIG's stubs take an array without a bound that is only read by the type with const_. */
#ifndef DEPOT_TYPES_H
#define DEPOT_TYPES_H

#include <mach/std_types.h>

typedef char *depot_data_t;
typedef const char *const_depot_data_t;
typedef char *depot_label_t;

#endif
