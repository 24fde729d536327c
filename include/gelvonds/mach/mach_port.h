/* Names and rights: Port Manipulation Interface. docs/CALLS.md says what each call does, and which refusal comes first.
 * Arrays that a call returns are pages of their own: give them back by vm_deallocate. */
#ifndef _MACH_MACH_PORT_H_
#define _MACH_MACH_PORT_H_

#include <mach/mach_types.h>

#ifdef __cplusplus
extern "C" {
#endif

kern_return_t mach_port_names(task_t task, mach_port_name_array_t *names, mach_msg_type_number_t *namesCnt,
                              mach_port_type_array_t *types, mach_msg_type_number_t *typesCnt);
kern_return_t mach_port_type(task_t task, mach_port_name_t name, mach_port_type_t *ptype);
kern_return_t mach_port_rename(task_t task, mach_port_name_t old_name, mach_port_name_t new_name);
kern_return_t mach_port_allocate_name(task_t task, mach_port_right_t right, mach_port_name_t name);
kern_return_t mach_port_allocate(task_t task, mach_port_right_t right, mach_port_name_t *name);
kern_return_t mach_port_destroy(task_t task, mach_port_name_t name);
kern_return_t mach_port_deallocate(task_t task, mach_port_name_t name);
kern_return_t mach_port_get_refs(task_t task, mach_port_name_t name, mach_port_right_t right, mach_port_urefs_t *refs);
kern_return_t mach_port_mod_refs(task_t task, mach_port_name_t name, mach_port_right_t right, mach_port_delta_t delta);
kern_return_t mach_port_get_receive_status(task_t task, mach_port_name_t name, mach_port_status_t *status);
kern_return_t mach_port_set_qlimit(task_t task, mach_port_name_t name, mach_port_msgcount_t qlimit);
kern_return_t mach_port_set_mscount(task_t task, mach_port_name_t name, mach_port_mscount_t mscount);
kern_return_t mach_port_set_seqno(task_t task, mach_port_name_t name, mach_port_seqno_t seqno);
kern_return_t mach_port_get_set_status(task_t task, mach_port_name_t name, mach_port_name_array_t *members,
                                       mach_msg_type_number_t *membersCnt);
kern_return_t mach_port_move_member(task_t task, mach_port_name_t member, mach_port_name_t after);
/* Of later Machs: a port in several sets. Without GELVONDS_PROFILE=3 they return KERN_INVALID_ARGUMENT. */
kern_return_t mach_port_insert_member(task_t task, mach_port_name_t name, mach_port_name_t pset);
kern_return_t mach_port_extract_member(task_t task, mach_port_name_t name, mach_port_name_t pset);

/* notify and *previous are names of the task itself, even where another task asks. */
kern_return_t mach_port_request_notification(task_t task, mach_port_name_t name, mach_msg_id_t id,
                                             mach_port_mscount_t sync, mach_port_t notify,
                                             mach_msg_type_name_t notifyPoly, mach_port_t *previous);

/* poly is a name of the calling thread's task, as it is in a message. */
kern_return_t mach_port_insert_right(task_t task, mach_port_name_t name, mach_port_t poly,
                                     mach_msg_type_name_t polyPoly);
kern_return_t mach_port_extract_right(task_t task, mach_port_name_t name, mach_msg_type_name_t msgt_name,
                                      mach_port_t *poly, mach_msg_type_name_t *polyPoly);

#ifdef __cplusplus
}
#endif

#endif
