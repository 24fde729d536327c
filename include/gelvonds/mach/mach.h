/* All of Mach that this library has, by one header. */
#ifndef _MACH_MACH_H_
#define _MACH_MACH_H_

#include <mach/boolean.h>
#include <mach/kern_return.h>
#include <mach/mach_error.h>
#include <mach/mach_interface.h>
#include <mach/mach_port.h>
#include <mach/mach_traps.h>
#include <mach/mach_types.h>
#include <mach/message.h>
#include <mach/mig_errors.h>
#include <mach/mig_support.h>
#include <mach/notify.h>
#include <mach/port.h>
#include <mach/std_types.h>
#include <mach/task_special_ports.h>

#ifdef __cplusplus
extern "C" {
#endif

/* Receives by rcv_name into a buffer of max_size bytes, hands each request to demux, and sends its reply, until a
 * receive is refused: the code is returned. With a timeout (milliseconds) MACH_RCV_TIMEOUT and MACH_RCV_LARGE are
 * looked at. */
mach_msg_return_t mach_msg_server(boolean_t (*demux)(mach_msg_header_t *request, mach_msg_header_t *reply),
                                  mach_msg_size_t max_size, mach_port_t rcv_name);
mach_msg_return_t mach_msg_server_timeout(boolean_t (*demux)(mach_msg_header_t *request, mach_msg_header_t *reply),
                                          mach_msg_size_t max_size, mach_port_t rcv_name, mach_msg_option_t option,
                                          mach_msg_timeout_t timeout);

/* Gives up each right that a message carries: of one that was received, and of one that wasn't sent. Gives back the
 * memory of data out of line that was received, or was to be given up by sending it (msgt_deallocate). */
void mach_msg_destroy(mach_msg_header_t *msg);

#ifdef __cplusplus
}
#endif

#endif
