/* The history of the calls, for mach_run check: docs/FORMATS.md has its text. All of it with the lock held. */
#include "layer.h"

#include <errno.h>
#include <inttypes.h>
#include <stdarg.h>
#include <stdlib.h>
#include <string.h>

FILE *gm_history;

static const char *file;

/* The file refused what was written: says so, and writes no more. */
static void fails(const char *what)
{
    fprintf(stderr, "gelvonds: the history %s can't be %s: %s\n", file, what, strerror(errno));
    gm_history = NULL;
}

void gm_open_history(void)
{
    uint32_t profile = 1;
    file = getenv("GELVONDS_HISTORY");
    if (file == NULL || *file == 0)
        return;
    gelvonds_profile(&gm_kernel, &profile);
    gm_history = fopen(file, "we");
    if (gm_history == NULL)
        fails("opened");
    else if (fprintf(gm_history, "mach-history %" PRIu32 "\n", profile) < 0)
        fails("written");
}

void gm_flush_history(void)
{
    if (gm_history != NULL && fflush(gm_history) != 0)
        fails("written");
}

void gm_close_history(void)
{
    FILE *const closing = gm_history;
    gm_flush_history();
    if (gm_history != NULL && fclose(closing) != 0)
        fails("written");
    gm_history = NULL;
}

/* ---- an entry: its call, then its reply ---- */

/* Writing may be a point where the thread is cancelled, and that must not happen with the lock held. */
static int begin(void)
{
    int before;
    pthread_setcancelstate(PTHREAD_CANCEL_DISABLE, &before);
    fprintf(gm_history, "%" PRIu64 " ", gm_self.caller);
    return before;
}

static void end(int before)
{
    putc('\n', gm_history);
    if (ferror(gm_history))
        fails("written");
    pthread_setcancelstate(before, NULL);
}

static void write_code(kern_return_t code)
{
    fprintf(gm_history, " -> code %08" PRIx32, (uint32_t)code);
}

static void write_bytes(const void *bytes, size_t length)
{
    static const char digit[] = "0123456789abcdef";
    const uint8_t *const from = bytes;
    if (length == 0)
        putc('-', gm_history);
    for (size_t i = 0; i < length; i++) {
        putc_unlocked(digit[from[i] >> 4], gm_history);
        putc_unlocked(digit[from[i] & 15], gm_history);
    }
}

void gm_record_code(kern_return_t code, const char *format, ...)
{
    va_list arguments;
    int before;
    if (gm_history == NULL)
        return;
    before = begin();
    va_start(arguments, format);
    vfprintf(gm_history, format, arguments);
    va_end(arguments);
    write_code(code);
    end(before);
}

void gm_record_number(kern_return_t code, const char *word, const uint32_t *number, const char *format, ...)
{
    va_list arguments;
    int before;
    if (gm_history == NULL)
        return;
    before = begin();
    va_start(arguments, format);
    vfprintf(gm_history, format, arguments);
    va_end(arguments);
    if (code != KERN_SUCCESS)
        write_code(code);
    else if (strcmp(word, "type") == 0)
        fprintf(gm_history, " -> type %08" PRIx32, *number);
    else
        fprintf(gm_history, " -> %s %" PRIu32, word, *number);
    end(before);
}

void gm_record_names(kern_return_t code, const gelvonds_name *names, const uint32_t *types, size_t count,
                     const char *format, ...)
{
    va_list arguments;
    int before;
    if (gm_history == NULL)
        return;
    before = begin();
    va_start(arguments, format);
    vfprintf(gm_history, format, arguments);
    va_end(arguments);
    if (code != KERN_SUCCESS) {
        write_code(code);
        end(before);
        return;
    }
    fputs(types != NULL ? " -> names" : " -> members", gm_history);
    for (size_t i = 0; i < count; i++) {
        fprintf(gm_history, " %" PRIu32, names[i]);
        if (types != NULL)
            fprintf(gm_history, ":%08" PRIx32, types[i]);
    }
    end(before);
}

void gm_record_status(kern_return_t code, const gelvonds_status *s, gelvonds_task task, mach_port_name_t name)
{
    int before;
    if (gm_history == NULL)
        return;
    before = begin();
    fprintf(gm_history, "status %" PRIu32 " %" PRIu32, task, name);
    if (code != KERN_SUCCESS)
        write_code(code);
    else
        fprintf(gm_history,
                " -> status %" PRIu32 " %" PRIu32 " %" PRIu32 " %" PRIu32 " %" PRIu32 " %" PRIu32 " %" PRIu32
                " %" PRIu32 " %" PRIu32,
                s->mps_pset, s->mps_seqno, s->mps_mscount, s->mps_qlimit, s->mps_msgcount, s->mps_sorights,
                s->mps_srights, s->mps_pdrequest, s->mps_nsrequest);
    end(before);
}

void gm_record_right(kern_return_t code, const mach_port_name_t *name, const uint32_t *kind, const char *format, ...)
{
    va_list arguments;
    int before;
    if (gm_history == NULL)
        return;
    before = begin();
    va_start(arguments, format);
    vfprintf(gm_history, format, arguments);
    va_end(arguments);
    if (code != KERN_SUCCESS)
        write_code(code);
    else
        fprintf(gm_history, " -> right %" PRIu32 " %" PRIu32, *name, *kind);
    end(before);
}

/* ---- messages ---- */

void gm_record_send(kern_return_t code, gelvonds_task task, const void *bytes, size_t length)
{
    int before;
    if (gm_history == NULL)
        return;
    before = begin();
    fprintf(gm_history, "send %" PRIu32 " ", task);
    write_bytes(bytes, length);
    write_code(code);
    end(before);
}

static void write_waited(gelvonds_waited on)
{
    fprintf(gm_history, "%c %" PRIu64, on.kind == GELVONDS_PORT ? 'p' : 's', on.identity);
}

void gm_record_receipt(kern_return_t code, const gm_message_call *call, gelvonds_task task,
                       const gelvonds_waited *again)
{
    int before;
    if (gm_history == NULL)
        return;
    before = begin();
    fprintf(gm_history, "%s %" PRIu32 " ", again != NULL ? "again" : "recv", task);
    if (again != NULL)
        write_waited(*again);
    else
        fprintf(gm_history, "%" PRIu32, call->name);
    fprintf(gm_history, " %" PRIu32 " %d", call->room, (call->option & MACH_RCV_LARGE) != 0);
    if (code == MACH_MSG_SUCCESS) {
        fputs(" -> message ", gm_history);
        write_bytes(call->buffer, call->length);
    } else if (code == MACH_RCV_TIMED_OUT) {
        fputs(" -> empty ", gm_history);
        write_waited(call->on);
    } else if (code == MACH_RCV_TOO_LARGE) {
        fprintf(gm_history, " -> toolarge %zu", call->length);
    } else {
        write_code(code);
    }
    end(before);
}
