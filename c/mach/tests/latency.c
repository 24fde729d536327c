/* latency [TIMES]: a request and its answer between two threads, so often (20,000) by mach_msg, by two POSIX message
 * queues and by a socket pair, in turns. Prints the least and the median of five runs, in nanoseconds for one request. */
#define _DEFAULT_SOURCE 1
#include "check.h"

#include <fcntl.h>
#include <mqueue.h>
#include <sys/socket.h>
#include <time.h>
#include <unistd.h>

enum { RUNS = 5, BYTES = sizeof(number_message) };

/* A way to ask and to answer: the request and the answer have as many bytes as a message of mach_msg. */
typedef struct {
    const char *name;
    bool (*ask)(char *bytes);
    bool (*answer)(char *bytes); /* one request; false at the last */
    bool (*last)(void);          /* ends the thread that answers */
} way;

static mach_port_t service, replies;

static bool ask_mach(char *bytes)
{
    mach_msg_header_t *const head = (mach_msg_header_t *)(void *)bytes;
    head->msgh_bits = MACH_MSGH_BITS(MACH_MSG_TYPE_COPY_SEND, MACH_MSG_TYPE_MAKE_SEND_ONCE);
    head->msgh_remote_port = service;
    head->msgh_local_port = replies;
    head->msgh_id = 1;
    return mach_msg(head, MACH_SEND_MSG | MACH_RCV_MSG, BYTES, BYTES, replies, 0, MACH_PORT_NULL) == MACH_MSG_SUCCESS;
}

static bool answer_mach(char *bytes)
{
    mach_msg_header_t *const head = (mach_msg_header_t *)(void *)bytes;
    if (mach_msg(head, MACH_RCV_MSG, 0, BYTES, service, 0, MACH_PORT_NULL) != MACH_MSG_SUCCESS || head->msgh_id == 0)
        return false;
    head->msgh_bits = MACH_MSGH_BITS(MACH_MSGH_BITS_REMOTE(head->msgh_bits), 0);
    head->msgh_local_port = MACH_PORT_NULL;
    return mach_msg(head, MACH_SEND_MSG, BYTES, 0, MACH_PORT_NULL, 0, MACH_PORT_NULL) == MACH_MSG_SUCCESS;
}

static bool last_mach(void)
{
    mach_msg_header_t head = { 0, 0, 0, 0, 0, 0 };
    head.msgh_bits = MACH_MSGH_BITS(MACH_MSG_TYPE_COPY_SEND, 0);
    head.msgh_remote_port = service;
    return mach_msg(&head, MACH_SEND_MSG, sizeof head, 0, MACH_PORT_NULL, 0, MACH_PORT_NULL) == MACH_MSG_SUCCESS;
}

static mqd_t to_server = (mqd_t)-1, to_client = (mqd_t)-1;

static mqd_t new_queue(const char *name)
{
    struct mq_attr attributes = { 0 };
    mqd_t made;
    attributes.mq_maxmsg = 5;
    attributes.mq_msgsize = BYTES;
    made = mq_open(name, O_CREAT | O_EXCL | O_RDWR, 0600, &attributes);
    mq_unlink(name);
    return made;
}

static bool ask_queue(char *bytes)
{
    return mq_send(to_server, bytes, BYTES, 0) == 0 && mq_receive(to_client, bytes, BYTES, NULL) == BYTES;
}

static bool answer_queue(char *bytes)
{
    return mq_receive(to_server, bytes, BYTES, NULL) == BYTES && mq_send(to_client, bytes, BYTES, 0) == 0;
}

static bool last_queue(void)
{
    return mq_send(to_server, "", 1, 0) == 0;
}

static int ends_of_pair[2];

static bool ask_pair(char *bytes)
{
    return send(ends_of_pair[0], bytes, BYTES, 0) == BYTES && recv(ends_of_pair[0], bytes, BYTES, 0) == BYTES;
}

static bool answer_pair(char *bytes)
{
    return recv(ends_of_pair[1], bytes, BYTES, 0) == BYTES && send(ends_of_pair[1], bytes, BYTES, 0) == BYTES;
}

static bool last_pair(void)
{
    return send(ends_of_pair[0], "", 1, 0) == 1;
}

static void *answer_all(void *given)
{
    const way *const by = given;
    _Alignas(8) char bytes[BYTES];
    while (by->answer(bytes))
        ;
    return NULL;
}

/* Nanoseconds for one request. */
static double run(const way *by, long times)
{
    _Alignas(8) char bytes[BYTES] = { 0 };
    struct timespec from, to;
    pthread_t server;
    if (pthread_create(&server, NULL, answer_all, (void *)by) != 0)
        abort();
    clock_gettime(CLOCK_MONOTONIC, &from);
    for (long i = 0; i < times; i++)
        if (!by->ask(bytes))
            abort();
    clock_gettime(CLOCK_MONOTONIC, &to);
    if (!by->last())
        abort();
    pthread_join(server, NULL);
    return ((double)(to.tv_sec - from.tv_sec) * 1e9 + (double)(to.tv_nsec - from.tv_nsec)) / (double)times;
}

static int compare(const void *one, const void *other)
{
    const double a = *(const double *)one, b = *(const double *)other;
    return (a > b) - (a < b);
}

int main(int argc, char **argv)
{
    static const way ways[] = { { "mach_msg", ask_mach, answer_mach, last_mach },
                                { "POSIX message queues", ask_queue, answer_queue, last_queue },
                                { "socket pair", ask_pair, answer_pair, last_pair } };
    enum { WAYS = sizeof ways / sizeof *ways };
    const long times = argc > 1 ? strtol(argv[1], NULL, 10) : 20000;
    double took[WAYS][RUNS];
    service = new_port();
    replies = new_port();
    to_server = new_queue("/gelvonds_latency_server");
    to_client = new_queue("/gelvonds_latency_client");
    if (socketpair(AF_UNIX, SOCK_SEQPACKET, 0, ends_of_pair) != 0)
        abort();
    for (int i = 0; i < RUNS; i++)
        for (int j = 0; j < WAYS; j++)
            took[j][i] = j == 1 && to_client == (mqd_t)-1 ? 0 : run(&ways[j], times);
    for (int j = 0; j < WAYS; j++) {
        qsort(took[j], RUNS, sizeof took[j][0], compare);
        printf("%-22s least %8.0f ns, median %8.0f ns\n", ways[j].name, took[j][0], took[j][RUNS / 2]);
    }
    return 0;
}
