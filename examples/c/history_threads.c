/* The history of 8 threads round one kernel. Each call's line is asked for while the thread still has the lock, so the
 * lines stand in the order of the calls. At the end the whole text is judged. Which calls are refused differs from run to
 * run, as the threads' order does. So only main prints, and only what is the same in each run. */
#include "gelvonds.h"

#include <pthread.h>
#include <stdio.h>
#include <stdlib.h>
#include <string.h>

enum { THREADS = 8, CALLS_EACH = 12500, HEADER = 24, LONGEST = 88, LIST = 12 };

/* Names that a thread picks: its own port and set, and its send right for the port of thread n. */
enum { PORT = 500, SET = 501, PEER = 1000 };

/* The lock is held over each call and its line. */
static pthread_mutex_t lock = PTHREAD_MUTEX_INITIALIZER;
static gelvonds kernel = GELVONDS_NONE;

/* The history, of which so many bytes are written. */
static uint8_t *history;
static size_t written, room;

struct worker {
    uint32_t number, random, done, refused;
    gelvonds_task task;
    gelvonds_waited waited;
};

/* Ends the program, with the name of the code, where a call is refused that never may be. */
static void require(const char *what, gelvonds_code code) {
    char name[GELVONDS_TEXT_ROOM] = "";
    if (code == KERN_SUCCESS)
        return;
    gelvonds_code_name(code, name, sizeof name);
    fprintf(stderr, "%s: %s\n", what, name);
    exit(1);
}

/* Makes room for more than so many bytes. */
static void make_room(size_t length) {
    if (room - written >= length)
        return;
    room = 2 * room + length;
    history = realloc(history, room);
    if (history == NULL) {
        fprintf(stderr, "no memory for the history\n");
        exit(1);
    }
}

/* Adds the line of the last call. The caller has the lock. */
static void keep_line(uint32_t caller) {
    size_t length = 0;
    gelvonds_code code = gelvonds_entry(&kernel, caller, history + written, room - written, &length);
    if (code == GELVONDS_TOO_SHORT) {
        make_room(length);
        code = gelvonds_entry(&kernel, caller, history + written, room - written, &length);
    }
    require("the line of a call", code);
    written += length;
}

/* Makes a call, and adds its line. */
#define CALL(own, code, function, ...)                \
    do {                                              \
        pthread_mutex_lock(&lock);                    \
        (code) = function(&kernel, __VA_ARGS__);      \
        keep_line((own)->number);                     \
        pthread_mutex_unlock(&lock);                  \
    } while (0)

/* ---- random calls ---- */

/* A number below n. */
static uint32_t below(struct worker *own, uint32_t n) {
    own->random ^= own->random << 13;
    own->random ^= own->random >> 17;
    own->random ^= own->random << 5;
    return own->random % n;
}

static void put_word(uint8_t *at, uint32_t word) {
    for (int i = 0; i < 4; i++)
        at[i] = (uint8_t)(word >> (8 * i));
}

/* A name of the worker's task, or one that may be. */
static gelvonds_name some_name(struct worker *own) {
    const gelvonds_name names[] = { PORT, SET, PEER + below(own, THREADS), 1 + below(own, 32) };
    return names[below(own, 4)];
}

/* Sends a message to another's port, in some of them with a right to answer by. */
static gelvonds_code send_some(struct worker *own) {
    uint8_t message[LONGEST];
    size_t length = HEADER + 4 * below(own, (LONGEST - HEADER) / 4 + 1);
    bool asks = below(own, 3) == 0;
    gelvonds_code code;
    memset(message, 0xa5, sizeof message);
    put_word(message, MACH_MSGH_BITS(MACH_MSG_TYPE_COPY_SEND, asks ? MACH_MSG_TYPE_MAKE_SEND_ONCE : 0));
    put_word(message + 8, PEER + below(own, THREADS));
    put_word(message + 12, asks ? PORT : 0);
    put_word(message + 20, below(own, 1000));
    CALL(own, code, gelvonds_send, own->task, message, length);
    return code;
}

/* Receives by the port or the set, in some calls with too little room, or what a receive before waited for. */
static gelvonds_code receive_some(struct worker *own) {
    uint8_t buffer[LONGEST];
    size_t length, places = below(own, 4) == 0 ? HEADER : LONGEST;
    bool large = below(own, 2) == 0;
    gelvonds_code code;
    if (own->waited.kind != 0 && below(own, 4) == 0)
        CALL(own, code, gelvonds_receive_again, own->task, buffer, places, large, &length, &own->waited);
    else
        CALL(own, code, gelvonds_receive, own->task, PORT + below(own, 2), buffer, places, large, &length, &own->waited);
    return code;
}

/* Asks, which changes nothing. */
static gelvonds_code ask_some(struct worker *own) {
    gelvonds_name names[LIST];
    uint32_t types[LIST], number;
    gelvonds_status status;
    size_t count;
    gelvonds_code code;
    switch (below(own, 5)) {
    case 0:
        CALL(own, code, gelvonds_port_names, own->task, names, LIST, types, LIST, &count);
        break;
    case 1:
        CALL(own, code, gelvonds_port_get_set_status, own->task, SET, names, LIST, &count);
        break;
    case 2:
        CALL(own, code, gelvonds_port_get_receive_status, own->task, PORT, &status);
        break;
    case 3:
        CALL(own, code, gelvonds_port_type, own->task, some_name(own), &number);
        break;
    default:
        CALL(own, code, gelvonds_port_get_refs, own->task, some_name(own), MACH_PORT_RIGHT_SEND, &number);
    }
    return code;
}

/* Changes the task's own names. */
static gelvonds_code change_some(struct worker *own) {
    gelvonds_name name;
    gelvonds_code code;
    switch (below(own, 8)) {
    case 0:
        CALL(own, code, gelvonds_port_allocate, own->task, below(own, 6), &name);
        break;
    case 1:
        CALL(own, code, gelvonds_port_allocate_name, own->task, MACH_PORT_RIGHT_RECEIVE, PORT);
        break;
    case 2:
        CALL(own, code, gelvonds_port_allocate_name, own->task, MACH_PORT_RIGHT_PORT_SET, SET);
        break;
    case 3:
        CALL(own, code, gelvonds_port_move_member, own->task, PORT, below(own, 2) ? SET : 0);
        break;
    case 4:
        CALL(own, code, gelvonds_port_set_qlimit, own->task, PORT, below(own, 20));
        break;
    case 5:
        CALL(own, code, gelvonds_port_mod_refs, own->task, some_name(own), below(own, 5), (int32_t)below(own, 3) - 1);
        break;
    case 6:
        CALL(own, code, gelvonds_port_destroy, own->task, below(own, 40) == 0 ? PORT : 1 + below(own, 32));
        break;
    default:
        CALL(own, code, gelvonds_port_deallocate, own->task, some_name(own));
    }
    return code;
}

/* Hands a right to another task, or takes one from it; that task may not be there yet. */
static gelvonds_code hand_some(struct worker *own) {
    uint32_t other = below(own, THREADS), kind;
    gelvonds_name name;
    gelvonds_code code;
    if (below(own, 4) == 0)
        CALL(own, code, gelvonds_port_extract_right, other, PORT, MACH_MSG_TYPE_MAKE_SEND_ONCE, own->task, &name, &kind);
    else
        CALL(own, code, gelvonds_port_insert_right, other, PEER + own->number, own->task, PORT, MACH_MSG_TYPE_MAKE_SEND);
    return code;
}

static void count(struct worker *own, gelvonds_code code) {
    if (code == KERN_SUCCESS || code == GELVONDS_TOO_SHORT)
        own->done++;
    else
        own->refused++;
}

static void *work(void *worker) {
    struct worker *own = worker;
    gelvonds_code code;
    CALL(own, code, gelvonds_task_create, &own->task);
    count(own, code);
    for (uint32_t made = 1; made < CALLS_EACH; made++) {
        uint32_t which = below(own, 10);
        count(own, which < 3 ? send_some(own)
                  : which < 6 ? receive_some(own)
                  : which < 7 ? ask_some(own)
                  : which < 9 ? change_some(own)
                  : hand_some(own));
    }
    return NULL;
}

/* ---- the verdict ---- */

static void judge(const char *what, size_t length) {
    static const char *const kinds[] = { "", "legal", "bad line", "not confirmed at" };
    gelvonds_verdict verdict;
    require("gelvonds_check", gelvonds_check(history, length, &verdict));
    printf("%s: %s %llu\n", what, kinds[verdict.kind], (unsigned long long)verdict.number);
}

int main(void) {
    static struct worker workers[THREADS];
    pthread_t threads[THREADS];
    size_t length = 0, lines = 0, first, whole;
    bool each = true;

    require("gelvonds_make", gelvonds_make(&kernel));
    require("gelvonds_keep_entries", gelvonds_keep_entries(&kernel));
    make_room(64);
    require("gelvonds_heading", gelvonds_heading(&kernel, history, room, &length));
    written = first = length;
    for (uint32_t i = 0; i < THREADS; i++) {
        workers[i].number = i;
        workers[i].random = i + 1;
        if (pthread_create(&threads[i], NULL, work, &workers[i]) != 0)
            return 1;
    }
    for (uint32_t i = 0; i < THREADS; i++) {
        pthread_join(threads[i], NULL);
        each = each && workers[i].done > 0 && workers[i].refused > 0
               && workers[i].done + workers[i].refused == CALLS_EACH;
    }
    gelvonds_free(&kernel);

    for (size_t i = 0; i < written; i++)
        lines += history[i] == '\n';
    printf("%d threads made %zu calls\n", THREADS, lines - 1);
    printf("%s\n", each ? "in each thread some calls were done, and some refused" : "a thread's calls are missing");
    whole = written;
    judge("the history", whole);
    judge("without its last line feed", whole - 1);
    /* The first call made the first task; no call makes it again. */
    length = (size_t)((uint8_t *)memchr(history + first, '\n', whole - first) + 1 - (history + first));
    make_room(length);
    memcpy(history + whole, history + first, length);
    judge("with its first call once more at the end", whole + length);
    memcpy(history + whole, "lost", 4);
    judge("with a line that is none", whole + 4);
    free(history);
    return 0;
}
