/* stress [MESSAGES]: so many messages (20,000) among 64 threads, while ports move and die, tasks end, threads are
 * cancelled and time runs out. None is lost, and none is left waiting.
 *
 * Hubs, each a task: threads that receive by a set, and senders of a task of their own, which fill the queues of
 * the hub's ports. A mover takes ports out of the set and puts them back, and sends receive rights to the next hub,
 * with what is in their queues. Each message has a number, and is received once.
 *
 * Services, each a task that doesn't live long: clients send requests with a right to reply once. To each comes a
 * reply, or the notice that the right was lost. Keepers end the tasks, or cancel their threads, and start others. */
#define _DEFAULT_SOURCE 1
#include "check.h"

#include <time.h>
#include <unistd.h>

enum { HUBS = 4, RECEIVERS = 5, SENDERS = 5, PORTS = 4, SERVICES = 6, CLIENTS = 12, KEEPERS = 2 };
/* HUBS * (RECEIVERS + SENDERS + 1) + SERVICES + CLIENTS + KEEPERS are 64 threads. */

enum { DATA = 1, STOP = 2, A_PORT = 3 };

static uint32_t each; /* messages of a sender, and requests of a client */
static atomic_uint_fast64_t received, replied, lost, undelivered;
static atomic_bool is_over; /* for the movers and the keepers */

static void pause_for(long microseconds)
{
    const struct timespec time = { 0, microseconds * 1000 };
    nanosleep(&time, NULL);
}

/* A small random number, of a state of the thread's own. */
static uint32_t random_below(uint32_t *state, uint32_t limit)
{
    *state = *state * 1664525u + 1013904223u;
    return (*state >> 16) % limit;
}

typedef struct {
    mach_msg_header_t head;
    union {
        struct {
            uint32_t sender, number;
        } data;
        struct {
            mach_msg_type_t type;
            mach_port_t port;
        } right;
    } body;
} message;

/* ---- hubs ---- */

typedef struct {
    task_t task, senders_task;
    mach_port_t set, control;      /* names of the hub */
    mach_port_t control_elsewhere; /* a name of the hub before it */
    mach_port_t to_ports[PORTS];   /* names of the senders */
    mach_port_t to_control;
    unsigned char *seen;           /* of each message of each sender */
    pthread_t receivers[RECEIVERS], senders[SENDERS], mover;
} hub;

static hub hubs[HUBS];

static void lay_head(message *it, mach_port_t to, mach_msg_id_t id, mach_msg_type_name_t how)
{
    memset(it, 0, sizeof *it);
    it->head.msgh_bits = MACH_MSGH_BITS(how, 0);
    it->head.msgh_size = sizeof *it;
    it->head.msgh_remote_port = to;
    it->head.msgh_id = id;
}

/* The message's number was seen at no hub before: ports move from hub to hub, so all have one list. */
static void note_data(const message *it)
{
    const size_t at = (size_t)it->body.data.sender * each + it->body.data.number;
    static pthread_mutex_t lock = PTHREAD_MUTEX_INITIALIZER;
    pthread_mutex_lock(&lock);
    IS(hubs[0].seen[at], 0);
    hubs[0].seen[at] = 1;
    pthread_mutex_unlock(&lock);
    atomic_fetch_add(&received, 1);
}

/* Receives by the set until it is told to stop; takes the ports that are sent here. */
static void *receive_at_hub(void *given)
{
    hub *const my = given;
    uint32_t state = (uint32_t)(uintptr_t)&state;
    message it;
    for (;;) {
        const bool limited = random_below(&state, 4) == 0;
        const mach_msg_return_t code =
            mach_msg(&it.head, MACH_RCV_MSG | (limited ? MACH_RCV_TIMEOUT : 0), 0, sizeof it, my->set,
                     random_below(&state, 3), MACH_PORT_NULL);
        if (limited && code == MACH_RCV_TIMED_OUT)
            continue;
        MUST(code);
        if (code != MACH_MSG_SUCCESS || it.head.msgh_id == STOP)
            return NULL;
        if (it.head.msgh_id == DATA)
            note_data(&it);
        else
            MUST(mach_port_move_member(mach_task_self(), it.body.right.port, my->set));
    }
}

typedef struct {
    hub *of;
    uint32_t number;
} sender;

static sender all_senders[HUBS * SENDERS];

static void *send_to_hub(void *given)
{
    const sender *const self = given;
    uint32_t state = self->number + 1;
    for (uint32_t i = 0; i < each; i++) {
        const bool limited = random_below(&state, 4) == 0;
        mach_msg_return_t code;
        message it;
        lay_head(&it, self->of->to_ports[random_below(&state, PORTS)], DATA, MACH_MSG_TYPE_COPY_SEND);
        it.body.data.sender = self->number;
        it.body.data.number = i;
        do
            code = mach_msg(&it.head, MACH_SEND_MSG | (limited ? MACH_SEND_TIMEOUT : 0), sizeof it, 0, MACH_PORT_NULL,
                            random_below(&state, 3), MACH_PORT_NULL);
        while (limited && code == MACH_SEND_TIMED_OUT);
        MUST(code);
    }
    return NULL;
}

/* One of the ports that are in the hub's set, but not the control port; 0 where there is none. */
static mach_port_t some_member(const hub *my, uint32_t *state)
{
    mach_port_name_array_t members;
    mach_msg_type_number_t count;
    mach_port_t chosen = MACH_PORT_NULL;
    if (mach_port_get_set_status(mach_task_self(), my->set, &members, &count) != KERN_SUCCESS)
        return MACH_PORT_NULL;
    if (count != 0)
        chosen = members[random_below(state, count)];
    vm_deallocate(mach_task_self(), (vm_address_t)members, count * sizeof *members);
    return chosen == my->control ? MACH_PORT_NULL : chosen;
}

/* Takes a port out of the set, and puts it back later, or sends it to the next hub with all that is queued. */
static void move_one(const hub *my, uint32_t *state)
{
    const mach_port_t port = some_member(my, state);
    message it;
    if (port == MACH_PORT_NULL)
        return;
    MUST(mach_port_move_member(mach_task_self(), port, MACH_PORT_NULL));
    if (random_below(state, 2) == 0) {
        pause_for(100);
        MUST(mach_port_set_qlimit(mach_task_self(), port, 1 + random_below(state, 5)));
        MUST(mach_port_move_member(mach_task_self(), port, my->set));
        return;
    }
    lay_head(&it, my->control_elsewhere, A_PORT, MACH_MSG_TYPE_COPY_SEND);
    it.head.msgh_bits |= MACH_MSGH_BITS_COMPLEX;
    it.body.right.type.msgt_name = MACH_MSG_TYPE_MOVE_RECEIVE;
    it.body.right.type.msgt_size = 32;
    it.body.right.type.msgt_number = 1;
    it.body.right.type.msgt_inline = TRUE;
    it.body.right.port = port;
    MUST(mach_msg(&it.head, MACH_SEND_MSG, sizeof it, 0, MACH_PORT_NULL, 0, MACH_PORT_NULL));
}

static void *move_ports(void *given)
{
    uint32_t state = (uint32_t)((hub *)given - hubs) + 77;
    while (!atomic_load(&is_over)) {
        move_one(given, &state);
        pause_for(500);
    }
    return NULL;
}

/* In the hub's task: its set, its ports. */
static void *prepare_hub(void *given)
{
    hub *const my = given;
    const task_t self = mach_task_self();
    MUST(mach_port_allocate(self, MACH_PORT_RIGHT_PORT_SET, &my->set));
    MUST(mach_port_allocate(self, MACH_PORT_RIGHT_RECEIVE, &my->control));
    MUST(mach_port_move_member(self, my->control, my->set));
    for (uint32_t i = 0; i < PORTS; i++) {
        mach_port_t port;
        MUST(mach_port_allocate(self, MACH_PORT_RIGHT_RECEIVE, &port));
        MUST(mach_port_set_qlimit(self, port, 1 + i));
        MUST(mach_port_move_member(self, port, my->set));
        MUST(mach_port_insert_right(my->senders_task, 100 + i, port, MACH_MSG_TYPE_MAKE_SEND));
        my->to_ports[i] = 100 + i;
    }
    return NULL;
}

/* In the hub's task: the hub before it gets a name of its control port, and so do those who end it all. */
static void *give_control(void *given)
{
    hub *const my = given, *const before = &hubs[(my - hubs + HUBS - 1) % HUBS];
    before->control_elsewhere = 5000;
    MUST(mach_port_insert_right(before->task, 5000, my->control, MACH_MSG_TYPE_MAKE_SEND));
    my->to_control = 5001;
    MUST(mach_port_insert_right(my->senders_task, 5001, my->control, MACH_MSG_TYPE_MAKE_SEND));
    return NULL;
}

static pthread_t starts(task_t task, void *(*run)(void *), void *given)
{
    pthread_t thread;
    if (gelvonds_mach_thread_create(task, run, given, &thread) != KERN_SUCCESS)
        abort();
    return thread;
}

static void runs(task_t task, void *(*run)(void *), void *given)
{
    pthread_join(starts(task, run, given), NULL);
}

static void start_hubs(void)
{
    for (int i = 0; i < HUBS; i++) {
        MUST(gelvonds_mach_task_create(&hubs[i].task));
        MUST(gelvonds_mach_task_create(&hubs[i].senders_task));
        runs(hubs[i].task, prepare_hub, &hubs[i]);
    }
    hubs[0].seen = calloc((size_t)HUBS * SENDERS * each, 1);
    for (int i = 0; i < HUBS; i++)
        runs(hubs[i].task, give_control, &hubs[i]);
    for (int i = 0; i < HUBS; i++) {
        for (int j = 0; j < RECEIVERS; j++)
            hubs[i].receivers[j] = starts(hubs[i].task, receive_at_hub, &hubs[i]);
        for (int j = 0; j < SENDERS; j++) {
            sender *const it = &all_senders[i * SENDERS + j];
            it->of = &hubs[i];
            it->number = (uint32_t)(i * SENDERS + j);
            hubs[i].senders[j] = starts(hubs[i].senders_task, send_to_hub, it);
        }
        hubs[i].mover = starts(hubs[i].task, move_ports, &hubs[i]);
    }
}

/* In the senders' task: a message to each receiver of the hub, to stop. */
static void *stop_receivers(void *given)
{
    const hub *const my = given;
    for (int i = 0; i < RECEIVERS; i++) {
        message it;
        lay_head(&it, my->to_control, STOP, MACH_MSG_TYPE_COPY_SEND);
        MUST(mach_msg(&it.head, MACH_SEND_MSG, sizeof it, 0, MACH_PORT_NULL, 0, MACH_PORT_NULL));
    }
    return NULL;
}

static void end_hubs(void)
{
    for (int i = 0; i < HUBS; i++)
        for (int j = 0; j < SENDERS; j++)
            pthread_join(hubs[i].senders[j], NULL);
    while (atomic_load(&received) != (uint64_t)HUBS * SENDERS * each)
        pause_for(1000);
    atomic_store(&is_over, true);
    for (int i = 0; i < HUBS; i++)
        pthread_join(hubs[i].mover, NULL);
    for (int i = 0; i < HUBS; i++)
        runs(hubs[i].senders_task, stop_receivers, &hubs[i]);
    for (int i = 0; i < HUBS; i++)
        for (int j = 0; j < RECEIVERS; j++)
            pthread_join(hubs[i].receivers[j], NULL);
    free(hubs[0].seen);
}

/* ---- services and their clients ---- */

typedef struct {
    pthread_mutex_t lock; /* of task and port: so that a client asks for a right of a task that is there */
    task_t task;
    mach_port_t port;     /* a name of the task */
    pthread_t thread;
} service;

static service services[SERVICES];

static void *serve(void *given)
{
    const mach_port_t port = ((service *)given)->port;
    number_message it;
    while (receive_number(port, &it, 0, 0) == MACH_MSG_SUCCESS) {
        it.head.msgh_bits = MACH_MSGH_BITS(MACH_MSGH_BITS_REMOTE(it.head.msgh_bits), 0);
        it.head.msgh_local_port = MACH_PORT_NULL;
        if (mach_msg(&it.head, MACH_SEND_MSG, sizeof it, 0, MACH_PORT_NULL, 0, MACH_PORT_NULL) != MACH_MSG_SUCCESS)
            return NULL; /* the task has ended */
    }
    return NULL;
}

/* With the service's lock held. */
static void start_service(service *it)
{
    MUST(gelvonds_mach_task_create(&it->task));
    it->port = 7;
    MUST(mach_port_allocate_name(it->task, MACH_PORT_RIGHT_RECEIVE, it->port));
    MUST(mach_port_set_qlimit(it->task, it->port, 2));
    it->thread = starts(it->task, serve, it);
}

/* In one of three ways: the task ends, the port dies, or the thread is cancelled and the task ends. */
static void end_service(const service *it, uint32_t way)
{
    if (way == 1)
        MUST(mach_port_destroy(it->task, it->port));
    if (way == 2)
        pthread_cancel(it->thread);
    if (way != 2)
        MUST(task_terminate(it->task));
    pthread_join(it->thread, NULL);
    if (way == 2)
        MUST(task_terminate(it->task));
}

static void *keep_services(void *given)
{
    uint32_t state = (uint32_t)(uintptr_t)given + 5;
    for (int n = 0; !atomic_load(&is_over); n++) {
        service *const it = &services[random_below(&state, SERVICES)];
        pthread_mutex_lock(&it->lock);
        end_service(it, random_below(&state, 3));
        start_service(it);
        pthread_mutex_unlock(&it->lock);
        pause_for(n < 2000 ? 2000 : 20000); /* (there are 65,536 tasks at most) */
    }
    return NULL;
}

/* A send right for a service that was there. */
static mach_port_t some_service(uint32_t *state)
{
    service *const it = &services[random_below(state, SERVICES)];
    mach_port_t port = MACH_PORT_NULL;
    mach_msg_type_name_t kind;
    pthread_mutex_lock(&it->lock);
    MUST(mach_port_extract_right(it->task, it->port, MACH_MSG_TYPE_MAKE_SEND, &port, &kind));
    pthread_mutex_unlock(&it->lock);
    return port;
}

/* A request, to which a reply or a notice comes. Returns whether the service is still there. */
static bool request(mach_port_t to, mach_port_t replies, uint32_t number)
{
    number_message it;
    mach_msg_return_t code = send_number(to, number, replies, 0, 0);
    if (code != MACH_MSG_SUCCESS) {
        WANT(code, MACH_SEND_INVALID_DEST);
        atomic_fetch_add(&undelivered, 1);
        return false;
    }
    MUST(receive_number(replies, &it, 0, 0));
    if (it.head.msgh_id == MACH_NOTIFY_SEND_ONCE) {
        atomic_fetch_add(&lost, 1);
        return false;
    }
    IS(it.number, number);
    atomic_fetch_add(&replied, 1);
    return true;
}

static void *ask(void *given)
{
    uint32_t state = (uint32_t)(uintptr_t)given + 99;
    const mach_port_t replies = mach_reply_port();
    mach_port_t to = MACH_PORT_NULL;
    for (uint32_t i = 0; i < each; i++) {
        if (to == MACH_PORT_NULL)
            to = some_service(&state);
        if (request(to, replies, i))
            continue;
        MUST(mach_port_deallocate(mach_task_self(), to));
        to = MACH_PORT_NULL;
    }
    MUST(mach_port_mod_refs(mach_task_self(), replies, MACH_PORT_RIGHT_RECEIVE, -1));
    return NULL;
}

int main(int argc, char **argv)
{
    const uint32_t messages = argc > 1 ? (uint32_t)strtoul(argv[1], NULL, 10) : 20000;
    pthread_t clients[CLIENTS], keepers[KEEPERS];
    gelvonds_mach_counts_t counts;
    each = messages / (HUBS * SENDERS + 2 * CLIENTS) + 1; /* (a request has two messages) */
    for (int i = 0; i < SERVICES; i++) {
        pthread_mutex_init(&services[i].lock, NULL);
        start_service(&services[i]);
    }
    start_hubs();
    for (uintptr_t i = 0; i < CLIENTS; i++)
        clients[i] = starts(mach_task_self(), ask, (void *)i);
    for (uintptr_t i = 0; i < KEEPERS; i++)
        keepers[i] = starts(mach_task_self(), keep_services, (void *)i);
    for (int i = 0; i < CLIENTS; i++)
        pthread_join(clients[i], NULL);
    end_hubs();
    for (int i = 0; i < KEEPERS; i++)
        pthread_join(keepers[i], NULL);
    for (int i = 0; i < SERVICES; i++)
        end_service(&services[i], 0);
    gelvonds_mach_get_counts(&counts);
    fprintf(stderr, "stress: %lu received by sets; %lu replies, %lu lost requests, %lu not sent; %lu woken, %lu in vain\n",
            (unsigned long)received, (unsigned long)replied, (unsigned long)lost, (unsigned long)undelivered,
            (unsigned long)counts.woken, (unsigned long)counts.vain);
    IS(replied + lost + undelivered, (uint64_t)CLIENTS * each);
    IS(counts.waiting_senders + counts.waiting_receivers, 0);
    return ends();
}
