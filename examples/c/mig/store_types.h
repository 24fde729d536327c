/* The types of store_types.defs, for C. MIG's stubs take a string that is only read by the type with const_. */
#ifndef STORE_TYPES_H
#define STORE_TYPES_H

#include <mach/std_types.h>

typedef char store_key_t[32];
typedef const char *const_store_key_t;
typedef char *store_value_t;
typedef natural_t *store_numbers_t;

#endif
