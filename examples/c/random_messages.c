/* Messages with random fields: laid out, sent, received, and compared with what their receiver is to get.
 * The sum of all bytes received stands in random_messages.expected. */
#include "gelvonds.h"

#include <inttypes.h>
#include <stdio.h>
#include <string.h>

enum { COUNT = 10000, PORTS = 4, ANSWERS = 5, MOST_ITEMS = 6, WORDS = 8, POOL = 4200, MOST_BYTES = 65536 };

/* The first words of descriptors: data stands in the message; and the three words of a long one. */
#define IN_LINE 0x10000000u
#define LONG_FORM 0x20000000u
/* The body is a list of items. */
#define COMPLEX 0x80000000u

static uint64_t state = 1;

static uint32_t word(void) {
    state = state * 6364136223846793005u + 1442695040888963407u;
    return (uint32_t)(state >> 32);
}

static uint32_t below(uint32_t bound) {
    return word() % bound;
}

static uint8_t pool[POOL];
static uint32_t words[WORDS];

/* A message, as it is sent and as it is received. */
typedef struct text {
    uint8_t sent[MOST_BYTES];
    uint8_t received[MOST_BYTES];
    size_t length;
} text;

static text message;
static uint8_t room[MOST_BYTES];

static void put_word(uint8_t *at, uint32_t value) {
    for (int i = 0; i < 4; i++)
        at[i] = (uint8_t)(value >> (8 * i));
}

static void add_words(uint32_t sent, uint32_t received) {
    put_word(message.sent + message.length, sent);
    put_word(message.received + message.length, received);
    message.length += 4;
}

/* Bytes of the pool, with zeros up to a multiple of 4. */
static void add_bytes(size_t count) {
    memset(message.sent + message.length, 0, count + 3);
    memcpy(message.sent + message.length, pool, count);
    memset(message.received + message.length, 0, count + 3);
    memcpy(message.received + message.length, pool, count);
    message.length += (count + 3) / 4 * 4;
}

/* A short descriptor, where the number fits into 12 bits, else a long one. */
static void add_descriptor(uint32_t sent, uint32_t received, uint32_t size, uint32_t number) {
    if (number < 4096) {
        uint32_t rest = size << 8 | number << 16 | IN_LINE;
        add_words(sent | rest, received | rest);
        return;
    }
    add_words(IN_LINE | LONG_FORM, IN_LINE | LONG_FORM);
    add_words(sent | size << 16, received | size << 16);
    add_words(number, number);
}

static uint32_t element_count(void) {
    return below(50) == 0 ? 4090 + below(12) : below(20);
}

static void add_item(void) {
    if (below(3) == 0) {
        uint32_t count = below(WORDS);
        add_descriptor(MACH_MSG_TYPE_COPY_SEND, MACH_MSG_TYPE_MOVE_SEND, 32, count);
        for (uint32_t i = 0; i < count; i++)
            add_words(words[i], words[i]);
        return;
    }
    uint32_t name = below(16);
    uint32_t count = element_count();
    if (below(2) == 0) {
        add_descriptor(name, name, 8, count);
        add_bytes(count);
    } else {
        add_descriptor(name, name, 16, count % 100);
        add_bytes(2 * (count % 100));
    }
}

/* The names that a message may have: those of the ports, and the two that are none. */
static void choose_words(void) {
    for (int i = 0; i < WORDS; i++) {
        uint32_t n = below(PORTS + 2);
        words[i] = n == 0 ? 0 : n == 1 ? 0xffffffffu : n - 1;
    }
}

/* What stands in front of a message, as the test chooses it. */
typedef struct front {
    uint32_t port;
    uint32_t disposition; /* of the reply, or 0 */
    uint32_t reply;
    uint32_t id;
} front;

static front choose_front(void) {
    front f = { 1 + below(PORTS), 0, 0, 0 };
    switch (below(3)) {
    case 0:
        break;
    case 1:
        f.disposition = MACH_MSG_TYPE_COPY_SEND;
        f.reply = 1 + below(PORTS);
        break;
    default:
        f.disposition = MACH_MSG_TYPE_MAKE_SEND_ONCE;
        f.reply = ANSWERS;
    }
    f.id = word();
    return f;
}

static uint32_t kind_of(uint32_t disposition) {
    return disposition == 0 ? 0 : disposition == MACH_MSG_TYPE_COPY_SEND ? MACH_MSG_TYPE_MOVE_SEND : MACH_MSG_TYPE_MOVE_SEND_ONCE;
}

/* The six words of the header; the received message has the port's sequence number. */
static void put_front(const front *f, uint32_t complex, uint32_t sequence) {
    const uint32_t sent[6] = { MACH_MSG_TYPE_COPY_SEND | f->disposition << 8 | complex, (uint32_t)message.length, f->port, f->reply, 0, f->id };
    const uint32_t received[6] = { kind_of(f->disposition) | (uint32_t)MACH_MSG_TYPE_MOVE_SEND << 8 | complex, (uint32_t)message.length, f->reply,
                                   f->port, sequence, f->id };
    for (int i = 0; i < 6; i++) {
        put_word(message.sent + 4 * i, sent[i]);
        put_word(message.received + 4 * i, received[i]);
    }
}

/* The next message, of which only the items count that its body has. */
static front make_message(uint32_t *sequences) {
    choose_words();
    message.length = 24;
    for (uint32_t items = below(MOST_ITEMS); items > 0; items--)
        add_item();
    front f = choose_front();
    uint32_t complex = COMPLEX;
    if (below(4) == 0) {
        complex = 0;
        message.length = 24;
        add_bytes(4 * below(64));
    }
    put_front(&f, complex, sequences[f.port]++);
    return f;
}

/* Drops the reply right; if that is a send-once right the client takes the notice. */
static int lose_reply(gelvonds *kernel, gelvonds_task server, gelvonds_task client, const front *f) {
    size_t length;
    gelvonds_waited waited;
    if (f->disposition == 0)
        return 1;
    if (gelvonds_port_deallocate(kernel, server, f->reply) != KERN_SUCCESS)
        return 0;
    return f->disposition == MACH_MSG_TYPE_COPY_SEND
        || gelvonds_receive(kernel, client, ANSWERS, room, 64, 0, &length, &waited) == MACH_MSG_SUCCESS;
}

/* The server's ports are 1 to 4, and so are the client's send rights for them; the client's own port is 5. */
static int open(gelvonds *kernel, gelvonds_task *server, gelvonds_task *client) {
    gelvonds_name name;
    if (gelvonds_task_create(kernel, server) != 0 || gelvonds_task_create(kernel, client) != 0)
        return 0;
    for (uint32_t i = 1; i <= PORTS; i++)
        if (gelvonds_port_allocate(kernel, *server, MACH_PORT_RIGHT_RECEIVE, &name) != 0
            || gelvonds_port_insert_right(kernel, *client, i, *server, i, MACH_MSG_TYPE_MAKE_SEND) != 0)
            return 0;
    return gelvonds_port_allocate(kernel, *client, MACH_PORT_RIGHT_RECEIVE, &name) == 0;
}

/* Sends the message and receives it: whether it is the one that its receiver is to get. */
static int deliver(gelvonds *kernel, gelvonds_task server, gelvonds_task client, const front *f) {
    size_t length = 0;
    gelvonds_waited waited;
    return gelvonds_send(kernel, client, message.sent, message.length) == MACH_MSG_SUCCESS
        && gelvonds_receive(kernel, server, f->port, room, sizeof room, 0, &length, &waited) == MACH_MSG_SUCCESS
        && length == message.length && memcmp(room, message.received, length) == 0;
}

int main(void) {
    gelvonds kernel = GELVONDS_NONE;
    gelvonds_task server = 0, client = 0;
    uint32_t sequences[PORTS + 1] = { 0 }, sum = 0, equal = 0;

    if (gelvonds_make(&kernel) != KERN_SUCCESS || !open(&kernel, &server, &client))
        return 1;
    for (int i = 0; i < POOL; i++)
        pool[i] = (uint8_t)(word() % 256);
    for (int n = 0; n < COUNT; n++) {
        front f = make_message(sequences);
        equal += (uint32_t)deliver(&kernel, server, client, &f);
        for (size_t i = 0; i < message.length; i++)
            sum = sum * 31 + room[i];
        if (!lose_reply(&kernel, server, client, &f))
            return 1;
    }
    printf("%" PRIu32 " messages came as they were sent, of %d; the sum is %08" PRIx32 "\n", equal, COUNT, sum);
    gelvonds_free(&kernel);
    return 0;
}
