/* A server over the stubs that MIG made of depot.defs. One thread runs all of it, so there is no lock.
 *
 * Data that came in is lent to a function: once it has returned KERN_SUCCESS, MIG's stub gives back what was out of line. If
 * it returns another code, mach_msg_server does, and gives up the rights too. */
#include "depot_server.h"

#include "depot_S.h"

#include <stdio.h>
#include <stdlib.h>
#include <string.h>

/* What mig makes beside the header. */
extern boolean_t depot_server(mach_msg_header_t *request, mach_msg_header_t *reply);

enum { LARGEST = 2304 }; /* of a request, as it is received: what is out of line takes an address */

int depot_answered;
static mach_port_array_t kept; /* pages of the server's, or NULL */
static mach_msg_type_number_t kept_count;

/* Room for so many bytes of a reply: in the reply itself, which has 2,048, or in pages, which go with it. */
static kern_return_t make_room(depot_data_t *data, mach_msg_type_number_t count, mach_msg_type_number_t length) {
    vm_address_t at;
    if (length <= count)
        return KERN_SUCCESS;
    if (vm_allocate(mach_task_self(), &at, length, TRUE) != KERN_SUCCESS)
        return KERN_RESOURCE_SHORTAGE;
    *data = (char *)at;
    return KERN_SUCCESS;
}

char depot_byte(int at) { return (char)(at % 7); }

kern_return_t do_depot_put(mach_port_t depot, const_depot_data_t data, mach_msg_type_number_t length, int *sum) {
    (void)depot;
    *sum = 0;
    for (mach_msg_type_number_t i = 0; i < length; i++)
        *sum += data[i];
    depot_answered++;
    return KERN_SUCCESS;
}

kern_return_t do_depot_get(mach_port_t depot, int length, depot_data_t *data, mach_msg_type_number_t *count) {
    const mach_msg_type_number_t whole = length < 0 ? 0 : (mach_msg_type_number_t)length;
    const kern_return_t code = make_room(data, *count, whole);
    (void)depot;
    if (code != KERN_SUCCESS)
        return code;
    for (mach_msg_type_number_t i = 0; i < whole; i++)
        (*data)[i] = depot_byte((int)i);
    *count = whole;
    depot_answered++;
    return KERN_SUCCESS;
}

kern_return_t do_depot_reverse(mach_port_t depot, const_depot_data_t data, mach_msg_type_number_t length,
                               depot_data_t *back, mach_msg_type_number_t *count) {
    const kern_return_t code = make_room(back, *count, length);
    (void)depot;
    if (code != KERN_SUCCESS)
        return code;
    for (mach_msg_type_number_t i = 0; i < length; i++)
        (*back)[i] = data[length - 1 - i];
    *count = length;
    depot_answered++;
    return KERN_SUCCESS;
}

/* The array is lent, and the rights are the server's: under these names. */
kern_return_t do_depot_keep(mach_port_t depot, const_mach_port_array_t rights, mach_msg_type_number_t count, int *number) {
    vm_address_t at;
    (void)depot;
    if (kept != NULL || count == 0)
        return KERN_INVALID_ARGUMENT;
    if (vm_allocate(mach_task_self(), &at, count * sizeof *rights, TRUE) != KERN_SUCCESS)
        return KERN_RESOURCE_SHORTAGE;
    kept = (mach_port_array_t)at;
    kept_count = count;
    memcpy(kept, rights, count * sizeof *rights);
    *number = (int)count;
    depot_answered++;
    return KERN_SUCCESS;
}

/* The array goes out of line, however short it is, since it isn't in the reply. */
kern_return_t do_depot_return(mach_port_t depot, mach_port_array_t *rights, mach_msg_type_number_t *count) {
    (void)depot;
    if (kept == NULL)
        return KERN_INVALID_ARGUMENT;
    *rights = kept;
    *count = kept_count;
    kept = NULL;
    depot_answered++;
    return KERN_SUCCESS;
}

kern_return_t do_depot_refuse(mach_port_t depot, const_depot_data_t data, mach_msg_type_number_t length,
                              const depot_label_t label, mach_msg_type_number_t label_length) {
    (void)depot;
    (void)data;
    (void)length;
    (void)label;
    (void)label_length;
    return KERN_FAILURE;
}

mach_msg_return_t depot_serve(mach_port_t service) { return mach_msg_server(depot_server, LARGEST, service); }
