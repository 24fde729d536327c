/* A server over the stubs that MIG made of store.defs, and of notify.defs for notices. One thread runs all of it, so
 * there is no lock. MIG's demultiplexers unpack a request, call the do_.. function here, and pack the reply. */
#define _POSIX_C_SOURCE 200809L
#include "store_server.h"

#include "notify_S.h"
#include "store_S.h"
#include "watcher.h"

#include <stdbool.h>
#include <stdio.h>
#include <stdlib.h>
#include <string.h>
#include <time.h>

/* What mig makes beside the header. */
extern boolean_t store_server(mach_msg_header_t *request, mach_msg_header_t *reply);
extern boolean_t notify_server(mach_msg_header_t *notice, mach_msg_header_t *reply);

enum { ENTRIES = 8, KEY = sizeof(store_key_t), VALUE = 1024, LARGEST = 2048 };

struct entry {
    char key[KEY]; /* empty for a free place */
    char value[VALUE];
    int length;
    bool removed;        /* and kept for those who watch it or have it open */
    mach_port_t watcher; /* a send right, or MACH_PORT_NULL */
    mach_port_t port;    /* of store_open: a receive right, or MACH_PORT_NULL */
};

struct store_account store_account;
static struct entry entries[ENTRIES];
static mach_port_t ports;   /* the set of all ports that are served */
static mach_port_t notices; /* for dead-name notices */
static mach_port_t given = MACH_PORT_NULL;

/* Ends the program where a call that has to succeed was refused. */
static void require(const char *what, kern_return_t code) {
    if (code == KERN_SUCCESS)
        return;
    fprintf(stderr, "server: %s: %s\n", what, mach_error_string(code));
    exit(1);
}

/* A new receive right of the task, in the set. */
static mach_port_t served_port(task_t task) {
    mach_port_t port;
    require("allocate", mach_port_allocate(task, MACH_PORT_RIGHT_RECEIVE, &port));
    require("move_member", mach_port_move_member(task, port, ports));
    return port;
}

static struct entry *entry_of_key(const char *key) {
    for (int i = 0; i < ENTRIES; i++)
        if (entries[i].key[0] != 0 && strcmp(entries[i].key, key) == 0)
            return &entries[i];
    return NULL;
}

/* The entry, but not one that was removed. */
static struct entry *present_entry(const char *key) {
    struct entry *entry = entry_of_key(key);
    return entry == NULL || entry->removed ? NULL : entry;
}

static struct entry *entry_of_port(mach_port_t port) {
    for (int i = 0; i < ENTRIES; i++)
        if (entries[i].port != MACH_PORT_NULL && entries[i].port == port)
            return &entries[i];
    return NULL;
}

static struct entry *free_entry(void) {
    for (int i = 0; i < ENTRIES; i++)
        if (entries[i].key[0] == 0)
            return &entries[i];
    return NULL;
}

/* Frees the place of an entry that was removed, once nobody watches it or has it open. */
static void free_removed(struct entry *entry) {
    if (entry->removed && entry->watcher == MACH_PORT_NULL && entry->port == MACH_PORT_NULL)
        memset(entry, 0, sizeof *entry);
}

/* Tells the watcher of an entry. A watcher that doesn't receive mustn't stop the server, but here all do. */
static void tell_changed(const struct entry *entry) {
    if (entry->watcher != MACH_PORT_NULL)
        require("watcher_changed", watcher_changed(entry->watcher, entry->key, entry->length));
}

/* ---- store.defs ---- */

kern_return_t do_store_report(mach_port_t store, int *count, int *bytes, int *watchers, int *opened) {
    (void)store;
    *count = *bytes = *watchers = *opened = 0;
    for (int i = 0; i < ENTRIES; i++) {
        *count += entries[i].key[0] != 0 && !entries[i].removed;
        *bytes += entries[i].length;
        *watchers += entries[i].watcher != MACH_PORT_NULL;
        *opened += entries[i].port != MACH_PORT_NULL;
    }
    return KERN_SUCCESS;
}

kern_return_t do_store_put(mach_port_t store, const_store_key_t key, const store_value_t value,
                           mach_msg_type_number_t length, int *number) {
    struct entry *entry = entry_of_key(key);
    (void)store;
    if (key[0] == 0)
        return KERN_INVALID_ARGUMENT;
    if (entry == NULL && (entry = free_entry()) == NULL)
        return KERN_RESOURCE_SHORTAGE;
    snprintf(entry->key, sizeof entry->key, "%s", key);
    memcpy(entry->value, value, length);
    entry->length = (int)length;
    entry->removed = false;
    *number = (int)(entry - entries);
    tell_changed(entry);
    return KERN_SUCCESS;
}

kern_return_t do_store_get(mach_port_t store, const_store_key_t key, store_value_t value,
                           mach_msg_type_number_t *length) {
    const struct entry *entry = present_entry(key);
    (void)store;
    if (entry == NULL)
        return KERN_INVALID_ARGUMENT;
    memcpy(value, entry->value, (size_t)entry->length);
    *length = (mach_msg_type_number_t)entry->length;
    return KERN_SUCCESS;
}

kern_return_t do_store_get_part(mach_port_t store, int number, int first, int length, store_value_t value,
                                mach_msg_type_number_t *returned) {
    (void)store;
    if (number < 0 || number >= ENTRIES || first < 0 || length < 0 || first > entries[number].length ||
        length > entries[number].length - first)
        return KERN_INVALID_ARGUMENT;
    memcpy(value, entries[number].value + first, (size_t)length);
    *returned = (mach_msg_type_number_t)length;
    return KERN_SUCCESS;
}

kern_return_t do_store_lengths(mach_port_t store, const store_numbers_t numbers, mach_msg_type_number_t count,
                               store_numbers_t lengths, mach_msg_type_number_t *returned) {
    (void)store;
    for (mach_msg_type_number_t i = 0; i < count; i++) {
        if (numbers[i] >= ENTRIES)
            return KERN_INVALID_ARGUMENT;
        lengths[i] = (natural_t)entries[numbers[i]].length;
    }
    *returned = count;
    return KERN_SUCCESS;
}

/* Keeps the right. Where a function returns another code than KERN_SUCCESS, mach_msg_server gives up the rights that
 * the request brought. */
kern_return_t do_store_watch(mach_port_t store, const_store_key_t key, mach_port_t watcher) {
    struct entry *entry = present_entry(key);
    mach_port_t previous;
    (void)store;
    if (entry == NULL)
        return KERN_INVALID_ARGUMENT;
    if (entry->watcher != MACH_PORT_NULL)
        return KERN_RESOURCE_SHORTAGE;
    require("request_notification",
            mach_port_request_notification(mach_task_self(), watcher, MACH_NOTIFY_DEAD_NAME, 1, notices,
                                           MACH_MSG_TYPE_MAKE_SEND_ONCE, &previous));
    entry->watcher = watcher;
    return KERN_SUCCESS;
}

/* Asks for a notice once nobody has a send right for the port: at once where that is so already, and so many send
 * rights were made. The notice goes to the port itself. */
static void ask_for_no_senders(mach_port_t port, mach_port_mscount_t made) {
    mach_port_t previous;
    require("request_notification",
            mach_port_request_notification(mach_task_self(), port, MACH_NOTIFY_NO_SENDERS, made, port,
                                           MACH_MSG_TYPE_MAKE_SEND_ONCE, &previous));
}

kern_return_t do_store_open(mach_port_t store, const_store_key_t key, mach_port_t *port) {
    struct entry *entry = present_entry(key);
    (void)store;
    if (entry == NULL)
        return KERN_INVALID_ARGUMENT;
    if (entry->port == MACH_PORT_NULL) {
        entry->port = served_port(mach_task_self());
        ask_for_no_senders(entry->port, 1);
    }
    *port = entry->port; /* the reply makes the send right */
    return KERN_SUCCESS;
}

kern_return_t do_entry_append(mach_port_t port, const store_value_t value, mach_msg_type_number_t length,
                              int *returned) {
    struct entry *entry = entry_of_port(port);
    if (entry == NULL)
        return KERN_INVALID_ARGUMENT;
    if (length > (mach_msg_type_number_t)(VALUE - entry->length))
        return KERN_NO_SPACE;
    memcpy(entry->value + entry->length, value, length);
    *returned = entry->length += (int)length;
    tell_changed(entry);
    return KERN_SUCCESS;
}

kern_return_t do_store_adopt(mach_port_t store, mach_port_t service) {
    (void)store;
    require("move_member", mach_port_move_member(mach_task_self(), service, ports));
    store_account.adopted++;
    return KERN_SUCCESS;
}

/* The right is a send right by whichever disposition it was sent, or this refuses it. */
kern_return_t do_store_exchange(mach_port_t store, mach_port_t right, mach_msg_type_name_t kind, mach_port_t *before) {
    (void)store;
    if (kind != MACH_MSG_TYPE_PORT_SEND)
        return KERN_INVALID_ARGUMENT;
    *before = given;
    given = right;
    store_account.exchanged++;
    return KERN_SUCCESS;
}

kern_return_t do_store_remove(mach_port_t store, const_store_key_t key) {
    struct entry *entry = present_entry(key);
    (void)store;
    if (entry == NULL)
        return KERN_INVALID_ARGUMENT;
    if (entry->watcher != MACH_PORT_NULL)
        require("watcher_removed", watcher_removed(entry->watcher, entry->key));
    entry->length = 0;
    entry->removed = true;
    free_removed(entry);
    return KERN_SUCCESS;
}

kern_return_t do_store_sleep(mach_port_t store, int milliseconds) {
    struct timespec time = { milliseconds / 1000, milliseconds % 1000 * 1000000L };
    (void)store;
    nanosleep(&time, NULL);
    return KERN_SUCCESS;
}

/* ---- notify.defs ---- */

/* A watcher's port has died. The dead name has two references: ours, and one more for the notice. */
kern_return_t do_mach_notify_dead_name(mach_port_t notify, mach_port_name_t name) {
    (void)notify;
    for (int i = 0; i < ENTRIES; i++) {
        if (entries[i].watcher == name) {
            entries[i].watcher = MACH_PORT_NULL;
            free_removed(&entries[i]);
            store_account.watchers_gone++;
            return mach_port_mod_refs(mach_task_self(), name, MACH_PORT_RIGHT_DEAD_NAME, -2);
        }
    }
    return KERN_INVALID_NAME;
}

/* Nobody can ask the entry's port any more. If a send right was made since the notice was sent, the next notice
 * counts. */
kern_return_t do_mach_notify_no_senders(mach_port_t notify, mach_port_mscount_t made) {
    struct entry *entry = entry_of_port(notify);
    mach_port_status_t status;
    if (entry == NULL)
        return KERN_INVALID_NAME;
    require("get_receive_status", mach_port_get_receive_status(mach_task_self(), notify, &status));
    if (status.mps_mscount != made) {
        ask_for_no_senders(notify, status.mps_mscount);
        return KERN_SUCCESS;
    }
    entry->port = MACH_PORT_NULL;
    free_removed(entry);
    store_account.closed++;
    return mach_port_mod_refs(mach_task_self(), notify, MACH_PORT_RIGHT_RECEIVE, -1);
}

/* A request's reply right was lost, or one of our own requests ended: nothing to do. */
kern_return_t do_mach_notify_send_once(mach_port_t notify) {
    (void)notify;
    return KERN_SUCCESS;
}

kern_return_t do_mach_notify_port_deleted(mach_port_t notify, mach_port_name_t name) {
    (void)notify;
    (void)name;
    return KERN_SUCCESS;
}

kern_return_t do_mach_notify_port_destroyed(mach_port_t notify, mach_port_t rights) {
    (void)notify;
    return mach_port_mod_refs(mach_task_self(), rights, MACH_PORT_RIGHT_RECEIVE, -1);
}

/* ---- the loop ---- */

/* A notice comes to a send-once right for `notices` or for an entry's port. Nobody but the server makes such rights, and
 * it makes them for notices alone. So no client can forge one. */
static boolean_t demultiplex(mach_msg_header_t *request, mach_msg_header_t *reply) {
    mach_port_t port = request->msgh_local_port;
    if (MACH_MSGH_BITS_LOCAL(request->msgh_bits) == MACH_MSG_TYPE_PORT_SEND_ONCE &&
        (port == notices || entry_of_port(port) != NULL))
        return notify_server(request, reply);
    return store_server(request, reply);
}

void store_prepare(task_t task, mach_port_t *service) {
    require("allocate", mach_port_allocate(task, MACH_PORT_RIGHT_PORT_SET, &ports));
    notices = served_port(task);
    *service = served_port(task);
}

mach_msg_return_t store_serve(void) { return mach_msg_server(demultiplex, LARGEST, ports); }
