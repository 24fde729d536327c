/* Threads that wait, round one kernel: a sender that waits for room in a queue, and two receivers that wait for
 * messages. Which receiver takes which message isn't fixed, so each thread keeps an account and only main prints. Main
 * goes on once threads sleep, so that all three surely wait. */
#define _POSIX_C_SOURCE 200809L
#include "gelvonds.h"

#include <pthread.h>
#include <stdio.h>
#include <stdlib.h>

/* The ids of messages are 1 to LAST, and then STOP, by which one receiver ends. */
enum { HEADER = 24, LIMIT = 2, LAST = 8, STOP = 0, RECEIVERS = 2 };

/* The lock is held during each call with the kernel, and guards `sleepers`. */
static pthread_mutex_t lock = PTHREAD_MUTEX_INITIALIZER;
static pthread_cond_t changed = PTHREAD_COND_INITIALIZER; /* a call may have ended a wait */
static pthread_cond_t asleep = PTHREAD_COND_INITIALIZER;  /* a thread begins to sleep */
static unsigned sleepers;

static gelvonds kernel = GELVONDS_NONE;
static gelvonds_task server, client;
static gelvonds_name service, service_of_client;

/* What a thread did, which main reads once the thread has ended. */
struct account {
    unsigned messages, sum, sleeps;
    bool out_of_order;
};

/* Ends the program, with the name of the code, where a call was refused. */
static void require(const char *what, gelvonds_code code) {
    char name[GELVONDS_TEXT_ROOM] = "";
    if (code == KERN_SUCCESS)
        return;
    gelvonds_code_name(code, name, sizeof name);
    fprintf(stderr, "%s: %s\n", what, name);
    exit(1);
}

static void put_word(uint8_t *at, uint32_t word) {
    for (int i = 0; i < 4; i++)
        at[i] = (uint8_t)(word >> (8 * i));
}

static uint32_t word_at(const uint8_t *at) {
    return at[0] | (uint32_t)at[1] << 8 | (uint32_t)at[2] << 16 | (uint32_t)at[3] << 24;
}

/* ---- calls that wait ---- */

/* Sleeps, without the lock, until another thread's call may have ended the wait. The caller has the lock, and tries
 * again. */
static void sleep_until_changed(struct account *own) {
    own->sleeps++;
    sleepers++;
    pthread_cond_signal(&asleep);
    pthread_cond_wait(&changed, &lock);
    sleepers--;
}

/* mach_msg: sends the message, or receives one into the room, and waits as long as it has to. */
static gelvonds_code mach_msg(gelvonds_task task, uint32_t options, const uint8_t *message, uint8_t *room, gelvonds_name name,
                              struct account *own) {
    gelvonds_msg msg;
    gelvonds_code code;
    pthread_mutex_lock(&lock);
    code = gelvonds_msg_begin(&kernel, &msg, task, options, message, HEADER, room, HEADER, name);
    while (msg.state != GELVONDS_MSG_DONE) {
        if (msg.state == GELVONDS_MSG_SENT)
            pthread_cond_broadcast(&changed); /* a receiver may wait for the message */
        else
            sleep_until_changed(own);
        code = gelvonds_msg_next(&kernel, &msg, message, HEADER, room, HEADER);
    }
    if (code == KERN_SUCCESS || code == MACH_RCV_TOO_LARGE)
        pthread_cond_broadcast(&changed); /* a receiver may wait for a message, or a sender for room */
    pthread_mutex_unlock(&lock);
    return code;
}

/* Sends a message without a body. */
static void send_waiting(uint32_t id, struct account *own) {
    uint8_t message[HEADER] = { 0 }, room[HEADER];
    put_word(message, MACH_MSGH_BITS(MACH_MSG_TYPE_COPY_SEND, 0));
    put_word(message + 8, service_of_client);
    put_word(message + 20, id);
    require("send", mach_msg(client, MACH_SEND_MSG, message, room, MACH_PORT_NULL, own));
}

/* Receives a message, and returns its id. */
static uint32_t receive_waiting(struct account *own) {
    uint8_t message[HEADER] = { 0 }, room[HEADER];
    require("receive", mach_msg(server, MACH_RCV_MSG, message, room, service, own));
    return word_at(room + 20);
}

/* ---- the threads ---- */

static void *send_all(void *account) {
    struct account *own = account;
    for (uint32_t id = 1; id <= LAST; id++) {
        send_waiting(id, own);
        own->messages++;
    }
    return NULL;
}

static void *receive_all(void *account) {
    struct account *own = account;
    uint32_t before = 0, id;
    while ((id = receive_waiting(own)) != STOP) {
        own->messages++;
        own->sum += id;
        own->out_of_order = own->out_of_order || id <= before;
        before = id;
    }
    return NULL;
}

/* Waits until so many threads sleep. */
static void await_sleepers(unsigned number) {
    pthread_mutex_lock(&lock);
    while (sleepers < number)
        pthread_cond_wait(&asleep, &lock);
    pthread_mutex_unlock(&lock);
}

/* ---- main ---- */

/* The server has a port with a short queue, and the client a send right for it. */
static void prepare(void) {
    uint32_t kind;
    require("make", gelvonds_make(&kernel));
    require("task_create", gelvonds_task_create(&kernel, &server));
    require("task_create", gelvonds_task_create(&kernel, &client));
    require("port_allocate", gelvonds_port_allocate(&kernel, server, MACH_PORT_RIGHT_RECEIVE, &service));
    require("port_set_qlimit", gelvonds_port_set_qlimit(&kernel, server, service, LIMIT));
    require("port_extract_right", gelvonds_port_extract_right(&kernel, server, service, MACH_MSG_TYPE_MAKE_SEND, client,
                                                              &service_of_client, &kind));
}

static pthread_t start(void *(*run)(void *), struct account *account) {
    pthread_t thread;
    if (pthread_create(&thread, NULL, run, account) == 0)
        return thread;
    fprintf(stderr, "no thread\n");
    exit(1);
}

/* Starts the sender, and the receivers once it sleeps. Stops the receivers once they sleep. */
static void run(struct account *sender, struct account *receivers, struct account *own) {
    pthread_t sending = start(send_all, sender), receiving[RECEIVERS];
    await_sleepers(1);
    for (int i = 0; i < RECEIVERS; i++)
        receiving[i] = start(receive_all, &receivers[i]);
    pthread_join(sending, NULL);
    await_sleepers(RECEIVERS);
    for (int i = 0; i < RECEIVERS; i++)
        send_waiting(STOP, own);
    for (int i = 0; i < RECEIVERS; i++)
        pthread_join(receiving[i], NULL);
}

int main(void) {
    struct account sender = { 0, 0, 0, false }, receivers[RECEIVERS] = { { 0, 0, 0, false } }, own = sender;
    struct account received = sender;
    prepare();
    run(&sender, receivers, &own);
    gelvonds_free(&kernel);
    printf("the sender %s\n", sender.sleeps != 0 ? "had to wait" : "never waited");
    for (int i = 0; i < RECEIVERS; i++) {
        printf("receiver %d %s\n", i + 1, receivers[i].sleeps != 0 ? "had to wait" : "never waited");
        received.messages += receivers[i].messages;
        received.sum += receivers[i].sum;
        received.out_of_order = received.out_of_order || receivers[i].out_of_order;
    }
    printf("%u messages sent, %u received, with a sum of ids of %u\n", sender.messages, received.messages, received.sum);
    printf("each receiver got its messages %s\n", received.out_of_order ? "out of order" : "in order");
    return 0;
}
