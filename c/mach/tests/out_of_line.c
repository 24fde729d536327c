/* out_of_line [off]: data out of line, with GELVONDS_OUT_OF_LINE=inline: what is sent and received, where the memory goes,
 * lengths, and messages that a sender crafted to have the layer's markers. With `off`: the option isn't set. */
#define _DEFAULT_SOURCE 1
#include "check.h"

#include <sys/mman.h>
#include <time.h>

enum { LONGEST = 65536, MOST_DATA = LONGEST - 44 };

#pragma pack(push, 4)
typedef struct {
    mach_msg_header_t head;
    mach_msg_type_long_t type;
    char *data;
} data_message;
#pragma pack(pop)

static uint32_t longest[LONGEST / 4];
static mach_msg_header_t *const room = (mach_msg_header_t *)longest;

static mach_msg_type_t item_head(unsigned name, unsigned size, unsigned number, bool is_inline)
{
    mach_msg_type_t head;
    memset(&head, 0, sizeof head);
    head.msgt_name = name & 0xff;
    head.msgt_size = size & 0xff;
    head.msgt_number = number & 0xfff;
    head.msgt_inline = is_inline;
    return head;
}

static mach_msg_header_t header(mach_port_t to, mach_port_t replies, size_t size)
{
    mach_msg_header_t head;
    const mach_msg_type_name_t local = replies == MACH_PORT_NULL ? 0 : MACH_MSG_TYPE_MAKE_SEND_ONCE;
    memset(&head, 0, sizeof head);
    head.msgh_bits = MACH_MSGH_BITS_COMPLEX | MACH_MSGH_BITS(MACH_MSG_TYPE_COPY_SEND, local);
    head.msgh_size = (mach_msg_size_t)size;
    head.msgh_remote_port = to;
    head.msgh_local_port = replies;
    return head;
}

static data_message with_data(mach_port_t to, char *data, size_t size, bool deallocate)
{
    data_message message;
    memset(&message, 0, sizeof message);
    message.head = header(to, MACH_PORT_NULL, sizeof message);
    message.type.msgtl_header.msgt_longform = TRUE;
    message.type.msgtl_header.msgt_deallocate = deallocate;
    message.type.msgtl_name = MACH_MSG_TYPE_CHAR;
    message.type.msgtl_size = 8;
    message.type.msgtl_number = (natural_t)size;
    message.data = data;
    return message;
}

static mach_msg_return_t send_now(mach_msg_header_t *message)
{
    return mach_msg(message, MACH_SEND_MSG | MACH_SEND_TIMEOUT, message->msgh_size, 0, MACH_PORT_NULL, 0, MACH_PORT_NULL);
}

static mach_msg_return_t receive_now(mach_msg_header_t *message, size_t size, mach_port_t from, mach_msg_option_t option)
{
    return mach_msg(message, MACH_RCV_MSG | MACH_RCV_TIMEOUT | option, 0, (mach_msg_size_t)size, from, 0, MACH_PORT_NULL);
}

static void fill(char *data, size_t size, unsigned seed)
{
    for (size_t i = 0; i < size; i++)
        data[i] = (char)(i * 7 + seed);
}

static bool is_filled(const char *data, size_t size, unsigned seed)
{
    for (size_t i = 0; i < size; i++)
        if (data[i] != (char)(i * 7 + seed))
            return false;
    return true;
}

static char *filled_pages(size_t size, unsigned seed)
{
    vm_address_t at;
    MUST(vm_allocate(mach_task_self(), &at, size, TRUE));
    fill((char *)at, size, seed);
    return (char *)at;
}

/* Whether there is memory at the address, which begins a page. */
static bool is_mapped(const void *at)
{
    unsigned char in_core;
    return mincore((void *)at, 1, &in_core) == 0;
}

static void give_back(char *data, size_t size)
{
    MUST(vm_deallocate(mach_task_self(), (vm_address_t)data, size));
    IS(size != 0 && is_mapped(data), false);
}

/* ---- data ---- */

static void test_sizes(void)
{
    static char data[MOST_DATA + 1];
    static const size_t sizes[] = { 0, 1, 3, 4, 5, 100, 4096, 10000, MOST_DATA };
    mach_port_t port = new_port();
    data_message message;
    for (size_t i = 0; i < sizeof sizes / sizeof *sizes; i++) {
        fill(data, sizes[i], (unsigned)i);
        message = with_data(port, data, sizes[i], false);
        MUST(send_now(&message.head));
        memset(data, 0, sizes[i]);
        MUST(receive_now(&message.head, sizeof message, port, 0));
        IS(message.head.msgh_size, sizeof message);
        IS(message.type.msgtl_header.msgt_inline, FALSE);
        IS(message.type.msgtl_header.msgt_deallocate, TRUE);
        IS(message.type.msgtl_number, sizes[i]);
        IS(is_filled(message.data, sizes[i], (unsigned)i), true);
        IS(sizes[i] == 0, message.data == NULL);
        give_back(message.data, sizes[i]);
    }
    message = with_data(port, data, MOST_DATA + 1, false);
    WANT(send_now(&message.head), MACH_SEND_INVALID_DATA);
    message = with_data(port, data, 0xffffffff, false);
    message.type.msgtl_size = 0xffff;
    WANT(send_now(&message.head), MACH_SEND_INVALID_DATA);
    MUST(mach_port_destroy(mach_task_self(), port));
}

/* Items of both kinds in one message: order, padding, and short heads. */
static void test_items(void)
{
#pragma pack(push, 4)
    struct {
        mach_msg_header_t head;
        mach_msg_type_t first_type;
        char first[4];
        mach_msg_type_t second_type;
        char *second;
        mach_msg_type_t third_type;
        char third[8];
        mach_msg_type_t fourth_type;
        char *fourth;
    } message;
#pragma pack(pop)
    mach_port_t port = new_port();
    char data[9] = "out of l", other[2] = "x";
    memset(&message, 0, sizeof message);
    message.head = header(port, MACH_PORT_NULL, sizeof message);
    message.first_type = item_head(MACH_MSG_TYPE_CHAR, 8, 3, true);
    memcpy(message.first, "in", 3);
    message.second_type = item_head(MACH_MSG_TYPE_CHAR, 8, sizeof data, false);
    message.second = data;
    message.third_type = item_head(MACH_MSG_TYPE_CHAR, 8, 6, true);
    memcpy(message.third, "third", 6);
    message.fourth_type = item_head(MACH_MSG_TYPE_CHAR, 8, sizeof other, false);
    message.fourth = other;
    MUST(mach_msg(&message.head, MACH_SEND_MSG | MACH_RCV_MSG, sizeof message, sizeof message, port, 0, MACH_PORT_NULL));
    IS(message.head.msgh_size, sizeof message);
    IS(strcmp(message.first, "in"), 0);
    IS(message.second != data && strcmp(message.second, "out of l") == 0, true);
    IS(strcmp(message.third, "third"), 0);
    IS(message.fourth != other && strcmp(message.fourth, "x") == 0, true);
    mach_msg_destroy(&message.head);
    IS(is_mapped(message.second), false);
    IS(is_mapped(message.fourth), false);
    MUST(mach_port_destroy(mach_task_self(), port));
}

/* An array of rights, given up as it was received. */
static void test_rights(void)
{
    const task_t self = mach_task_self();
    mach_port_t port = new_port(), sent = new_port();
    mach_port_t names[3] = { sent, sent, MACH_PORT_NULL };
    data_message message = with_data(port, (char *)names, 3, false);
    mach_port_urefs_t refs;
    message.type.msgtl_name = MACH_MSG_TYPE_MAKE_SEND;
    message.type.msgtl_size = 32;
    MUST(send_now(&message.head));
    MUST(receive_now(&message.head, sizeof message, port, 0));
    IS(message.type.msgtl_name, MACH_MSG_TYPE_PORT_SEND);
    IS(memcmp(message.data, names, sizeof names), 0);
    MUST(mach_port_get_refs(self, sent, MACH_PORT_RIGHT_SEND, &refs));
    IS(refs, 3);
    mach_msg_destroy(&message.head);
    IS(is_mapped(message.data), false);
    MUST(mach_port_get_refs(self, sent, MACH_PORT_RIGHT_SEND, &refs));
    IS(refs, 1);
    MUST(mach_port_destroy(self, port));
    MUST(mach_port_destroy(self, sent));
}

/* ---- lengths ---- */

static void test_large(void)
{
    mach_port_t port = new_port();
    char data[10000];
    data_message message = with_data(port, data, sizeof data, false);
    fill(data, sizeof data, 1);
    MUST(send_now(&message.head));
    WANT(receive_now(&message.head, sizeof message, port, MACH_RCV_LARGE), MACH_RCV_TOO_LARGE);
    IS(message.head.msgh_size, 44 + sizeof data);
    MUST(receive_now(room, message.head.msgh_size, port, MACH_RCV_LARGE));
    IS(room->msgh_size, sizeof message);
    memcpy(&message, room, sizeof message);
    IS(is_filled(message.data, sizeof data, 1), true);
    give_back(message.data, sizeof data);
    MUST(mach_port_destroy(mach_task_self(), port));
}

/* By a set: the long messages of two members, in their order. */
static void test_set(void)
{
    const task_t self = mach_task_self();
    mach_port_t ports[2] = { new_port(), new_port() }, set;
    static char data[9000];
    int seen[2] = { 0, 0 };
    MUST(mach_port_allocate(self, MACH_PORT_RIGHT_PORT_SET, &set));
    for (int i = 0; i < 6; i++) {
        data_message message = with_data(ports[i % 2], data, sizeof data - 4 * (size_t)i, false);
        fill(data, sizeof data, (unsigned)i);
        MUST(send_now(&message.head));
    }
    MUST(mach_port_move_member(self, ports[0], set));
    MUST(mach_port_move_member(self, ports[1], set));
    for (int i = 0; i < 6; i++) {
        data_message message;
        int *count;
        MUST(receive_now(&message.head, sizeof message, set, 0));
        count = &seen[message.head.msgh_local_port == ports[1]];
        IS(is_filled(message.data, message.type.msgtl_number, (unsigned char)message.data[0]), true);
        IS(message.type.msgtl_number, sizeof data - 8 * (size_t)(*count)++ - 4 * (count != seen));
        give_back(message.data, message.type.msgtl_number);
    }
    MUST(mach_port_destroy(self, ports[0]));
    MUST(mach_port_destroy(self, ports[1]));
    MUST(mach_port_destroy(self, set));
}

/* What doesn't fit in either form is destroyed: its reply right, and the right that moves in it. */
static void test_too_long(void)
{
    struct {
        data_message first;
        mach_msg_type_t type;
        mach_port_t moved;
    } message;
    const task_t self = mach_task_self();
    mach_port_t port = new_port(), replies = new_port(), moved = new_port();
    number_message notice;
    char data[5000] = "";
    for (int i = 0; i < 3; i++) {
        message.first = with_data(port, data, sizeof data, false);
        message.first.head = header(port, replies, sizeof message);
        message.type = item_head(MACH_MSG_TYPE_MAKE_SEND_ONCE, 32, 1, true);
        message.moved = moved;
        MUST(send_now(&message.first.head));
        message.first.head.msgh_size = 7;
        WANT(receive_now(&message.first.head, i == 2 ? 0 : sizeof message - 4, port, 0), MACH_RCV_TOO_LARGE);
        IS(message.first.head.msgh_size, i == 2 ? 7 : sizeof message);
        WANT(receive_now(room, sizeof longest, port, 0), MACH_RCV_TIMED_OUT);
        MUST(receive_number(replies, &notice, MACH_RCV_TIMEOUT, 0));
        IS(notice.head.msgh_id, MACH_NOTIFY_SEND_ONCE);
        MUST(receive_number(moved, &notice, MACH_RCV_TIMEOUT, 0));
        IS(notice.head.msgh_id, MACH_NOTIFY_SEND_ONCE);
        MUST(send_number(port, 1, replies, 0, 0)); /* one without items */
        WANT(receive_now(&message.first.head, sizeof message.first.head, port, 0), MACH_RCV_TOO_LARGE);
        IS(message.first.head.msgh_size, sizeof(number_message));
        MUST(receive_number(replies, &notice, MACH_RCV_TIMEOUT, 0));
        IS(notice.head.msgh_id, MACH_NOTIFY_SEND_ONCE);
    }
    MUST(mach_port_destroy(self, port));
    MUST(mach_port_destroy(self, replies));
    MUST(mach_port_destroy(self, moved));
}

/* ---- memory that goes with the message ---- */

static void test_deallocate(void)
{
    mach_port_t port = new_port();
    char *const data = filled_pages(9000, 3);
    data_message message = with_data(port, data, 9000, true), received;
    MUST(mach_port_set_qlimit(mach_task_self(), port, 1));
    MUST(send_number(port, 0, MACH_PORT_NULL, 0, 0));
    WANT(send_now(&message.head), MACH_SEND_TIMED_OUT);
    message.head.msgh_remote_port = 999;
    WANT(send_now(&message.head), MACH_SEND_INVALID_DEST);
    message.head.msgh_remote_port = port;
    MUST(receive_now(room, sizeof longest, port, 0));
    IS(is_filled(data, 9000, 3), true);
    MUST(send_now(&message.head));
    IS(is_mapped(data) || is_mapped(data + 8192), false);
    MUST(receive_now(&received.head, sizeof received, port, 0));
    IS(is_filled(received.data, 9000, 3), true);
    give_back(received.data, 9000);
    message = with_data(port, filled_pages(9000, 3), 9000, true); /* one that wasn't sent */
    mach_msg_destroy(&message.head);
    IS(is_mapped(message.data), false);
    message = with_data(port, filled_pages(9000, 3), 9000, false); /* and whose memory doesn't go with it */
    mach_msg_destroy(&message.head);
    IS(is_filled(message.data, 9000, 3), true);
    MUST(send_now(&message.head));
    IS(is_filled(message.data, 9000, 3), true);
    give_back(message.data, 9000);
    MUST(receive_now(&received.head, sizeof received, port, 0));
    give_back(received.data, 9000);
    MUST(mach_port_destroy(mach_task_self(), port));
}

/* What can't be read, or no item may be, is for the kernel to refuse, and the memory stays. */
static void test_refused(void)
{
    mach_port_t port = new_port();
    char *const data = filled_pages(100, 3);
    data_message message = with_data(port, data, 100, true);
    message.head.msgh_size = sizeof message - 4;
    WANT(send_now(&message.head), MACH_SEND_INVALID_TYPE); /* half an address */
    message.head.msgh_size = sizeof message - 12;
    WANT(send_now(&message.head), MACH_SEND_MSG_TOO_SMALL); /* half a head */
    message.head.msgh_size = sizeof message;
    message.type.msgtl_header.msgt_unused = 1;
    WANT(send_now(&message.head), MACH_SEND_INVALID_TYPE);
    message.type.msgtl_header.msgt_unused = 0;
    message.type.msgtl_name = MACH_MSG_TYPE_COPY_SEND; /* rights of 8 bits */
    WANT(send_now(&message.head), MACH_SEND_INVALID_TYPE);
    message.type.msgtl_name = 256;
    WANT(send_now(&message.head), MACH_SEND_INVALID_TYPE);
    message = with_data(port, data, 100, true);
    message.head.msgh_bits |= 1 << 16;
    WANT(send_now(&message.head), MACH_SEND_INVALID_HEADER);
    message.head.msgh_bits = MACH_MSGH_BITS(MACH_MSG_TYPE_COPY_SEND, 0); /* no items: the bytes go as they are */
    MUST(send_now(&message.head));
    MUST(receive_now(&message.head, sizeof message, port, 0));
    IS(message.data == data, true);
    WANT(receive_now(&message.head, sizeof message, port, 0), MACH_RCV_TIMED_OUT);
    IS(is_filled(data, 100, 3), true);
    give_back(data, 100);
    MUST(mach_port_destroy(mach_task_self(), port));
}

/* ---- markers that a sender wrote ---- */

static uint32_t word_of(mach_msg_type_t head)
{
    uint32_t word;
    memcpy(&word, &head, sizeof word);
    return word;
}

/* Sends these words as the items, and receives into the longest buffer, or into one of so many bytes. */
static mach_msg_return_t pass_words(mach_port_t port, const uint32_t *words, size_t count, size_t size)
{
    memcpy(longest + 6, words, count * sizeof *words);
    *room = header(port, MACH_PORT_NULL, 24 + count * sizeof *words);
    MUST(send_now(room));
    memset(longest, 0, sizeof longest);
    return receive_now(room, size, port, 0);
}

static void test_crafted(void)
{
    const uint32_t marker = word_of(item_head(254, 0, 0, true)), item = word_of(item_head(MACH_MSG_TYPE_CHAR, 8, 4, true));
    const uint32_t empty = word_of(item_head(MACH_MSG_TYPE_CHAR, 8, 0, true));
    const uint32_t last[] = { item, 7, marker, marker }, half[] = { marker, item, 7 };
    const uint32_t four[] = { marker, marker, marker, marker, item, 7 }, none[] = { marker, marker, empty };
    mach_port_t port = new_port();
    char *data;
    MUST(pass_words(port, last, 4, sizeof longest));
    IS(room->msgh_size, 24 + sizeof last);
    IS(memcmp(longest + 6, last, sizeof last), 0);
    MUST(pass_words(port, half, 3, sizeof longest));
    IS(room->msgh_size, 24 + sizeof half);
    IS(memcmp(longest + 6, half, sizeof half), 0);
    MUST(pass_words(port, four, 6, sizeof longest));
    IS(room->msgh_size, 24 + 4 + sizeof data + 4 + 8);
    memcpy(&data, longest + 7, sizeof data);
    IS(data == NULL, true);
    mach_msg_destroy(room);
    MUST(pass_words(port, none, 3, 24 + 4 + sizeof data));
    IS(room->msgh_size, 24 + 4 + sizeof data);
    WANT(pass_words(port, four, 6, 24), MACH_RCV_TOO_LARGE);
    IS(room->msgh_size, 24 + 4 + sizeof data + 4 + 8);
    MUST(mach_port_destroy(mach_task_self(), port));
}

/* As many marked items as a message can have. */
static void test_many(void)
{
    enum { MANY = (LONGEST - 24) / 16 };
    static uint32_t words[4 * MANY];
    static char *data[MANY];
    const size_t each = 4 + sizeof *data;
    mach_port_t port = new_port();
    for (size_t i = 0; i < MANY; i++) {
        words[4 * i] = words[4 * i + 1] = word_of(item_head(254, 0, 0, true));
        words[4 * i + 2] = word_of(item_head(MACH_MSG_TYPE_INTEGER_32, 32, 1, true));
        words[4 * i + 3] = (uint32_t)i;
    }
    for (int times = 0; times < 2; times++) {
        MUST(pass_words(port, words, 4 * MANY, times == 0 ? sizeof longest : 24 + MANY * each));
        IS(room->msgh_size, 24 + MANY * each);
        for (size_t i = 0; i < MANY; i++) {
            memcpy(&data[i], (char *)room + 24 + i * each + 4, sizeof *data);
            IS(*(uint32_t *)data[i], i);
        }
        mach_msg_destroy(room);
        for (size_t i = 0; i < MANY; i++)
            IS(is_mapped(data[i]), false);
    }
    MUST(mach_port_destroy(mach_task_self(), port));
}

static uint32_t any_word(uint32_t *state, mach_port_t port)
{
    const uint32_t heads[] = {
        word_of(item_head(254, 0, 0, true)), word_of(item_head(254, 0, 0, true)),
        word_of(item_head(MACH_MSG_TYPE_CHAR, 8, 3, true)), word_of(item_head(MACH_MSG_TYPE_CHAR, 8, 0, true)),
        word_of(item_head(MACH_MSG_TYPE_INTEGER_32, 32, 2, true)), word_of(item_head(MACH_MSG_TYPE_MAKE_SEND, 32, 1, true)),
        0x30000000, 0x00080008, port, 2, 0,
    };
    *state = *state * 1664525 + 1013904223;
    return heads[(*state >> 8) % (sizeof heads / sizeof *heads)];
}

/* Messages of such words in any order, received into any room. */
static void test_any(void)
{
    mach_port_t port = new_port();
    mach_port_urefs_t refs;
    uint32_t state = 1;
    int received = 0;
    for (int i = 0; i < 20000; i++) {
        const size_t words = 1 + i % 9;
        size_t size;
        mach_msg_header_t *exact; /* (a sanitizer looks at what is behind it) */
        mach_msg_return_t code;
        for (size_t j = 0; j < words; j++)
            longest[6 + j] = any_word(&state, port);
        *room = header(port, MACH_PORT_NULL, 24 + 4 * words);
        if (send_now(room) != MACH_MSG_SUCCESS)
            continue;
        size = i % 7 == 0 ? (size_t)(state >> 8) % 64 : 24 + 4 * words;
        exact = malloc(size);
        code = receive_now(exact, size, port, 0);
        received += code == MACH_MSG_SUCCESS;
        if (code == MACH_MSG_SUCCESS)
            mach_msg_destroy(exact);
        else
            WANT(code, MACH_RCV_TOO_LARGE);
        free(exact);
    }
    IS(received > 1000, true);
    MUST(mach_port_get_refs(mach_task_self(), port, MACH_PORT_RIGHT_SEND, &refs));
    IS(refs, 1);
    MUST(mach_port_destroy(mach_task_self(), port));
}

/* ---- a server ---- */

enum { REFUSED = 1, TOO_LONG, NO_CLIENT, ANSWERED };

#pragma pack(push, 4)
typedef struct {
    mig_reply_header_t start;
    mach_msg_type_long_t type;
    char *data;
} data_reply;
#pragma pack(pop)

static char *came, *went; /* the data of the last request, and of the last reply */

/* Answers by pages that go with the reply. */
static boolean_t demultiplex(mach_msg_header_t *request, mach_msg_header_t *reply_head)
{
    data_reply *const reply = (data_reply *)reply_head;
    const size_t size = request->msgh_id == TOO_LONG ? LONGEST : 5000;
    const data_message message = with_data(request->msgh_remote_port, NULL, size, true);
    came = ((data_message *)request)->data;
    reply->start.Head = message.head;
    reply->start.Head.msgh_bits = MACH_MSGH_BITS(MACH_MSGH_BITS_REMOTE(request->msgh_bits), 0);
    reply->start.Head.msgh_size = sizeof reply->start;
    reply->start.RetCodeType = item_head(MACH_MSG_TYPE_INTEGER_32, 32, 1, true);
    reply->start.RetCode = request->msgh_id == REFUSED ? KERN_FAILURE : KERN_SUCCESS;
    if (request->msgh_id == REFUSED)
        return TRUE;
    if (request->msgh_id == NO_CLIENT)
        MUST(mach_port_destroy(mach_task_self(), *(mach_port_t *)came));
    give_back(came, 8);
    reply->start.Head.msgh_bits |= MACH_MSGH_BITS_COMPLEX;
    reply->start.Head.msgh_size = sizeof *reply;
    reply->type = message.type;
    reply->data = went = filled_pages(size, 9);
    return TRUE;
}

/* One request, in which the name of its reply port goes out of line. Returns the code of the reply. */
static kern_return_t serve_one(mach_port_t port, mach_port_t replies, mach_msg_id_t id)
{
    uint32_t name[2] = { replies, 0 };
    data_message message = with_data(port, (char *)name, sizeof name, false);
    data_reply reply;
    message.head = header(port, replies, sizeof message);
    message.head.msgh_id = id;
    MUST(send_now(&message.head));
    WANT(mach_msg_server_timeout(demultiplex, sizeof message, port, MACH_RCV_TIMEOUT, 0), MACH_RCV_TIMED_OUT);
    IS(is_mapped(came), false);
    IS(went != NULL && is_mapped(went), false);
    if (id == NO_CLIENT)
        return KERN_SUCCESS;
    MUST(receive_now(&reply.start.Head, sizeof reply, replies, 0));
    if (id == ANSWERED) {
        IS(is_filled(reply.data, 5000, 9), true);
        give_back(reply.data, 5000);
    }
    return reply.start.RetCode;
}

/* The server's loop gives back the memory of what it refuses, and of replies that can't be sent. */
static void test_server(void)
{
    mach_port_t port = new_port(), replies = new_port();
    WANT(serve_one(port, replies, REFUSED), KERN_FAILURE);
    WANT(serve_one(port, replies, ANSWERED), KERN_SUCCESS);
    WANT(serve_one(port, replies, TOO_LONG), MIG_ARRAY_TOO_LARGE);
    WANT(serve_one(port, replies, NO_CLIENT), KERN_SUCCESS);
    MUST(mach_port_destroy(mach_task_self(), port));
}

/* ---- threads ---- */

static void until_senders_wait(uint64_t senders)
{
    const struct timespec time = { 0, 200000 };
    gelvonds_mach_counts_t counts;
    do {
        nanosleep(&time, NULL);
        gelvonds_mach_get_counts(&counts);
    } while (counts.waiting_senders != senders);
}

typedef struct {
    mach_port_t port;
    char *data;
    size_t size;
} sending;

static void *send_one(void *given)
{
    const sending *const what = given;
    data_message message = with_data(what->port, what->data, what->size, true);
    MUST(mach_msg(&message.head, MACH_SEND_MSG, sizeof message, 0, MACH_PORT_NULL, 0, MACH_PORT_NULL));
    return NULL;
}

/* One that waits with its copy is cancelled, and another one goes on, whose copy has what was there at its call. */
static void test_cancelled(void)
{
    mach_port_t port = new_port();
    sending first = { port, filled_pages(5000, 1), 5000 }, second = { port, filled_pages(6000, 2), 6000 };
    data_message received;
    pthread_t threads[2];
    MUST(mach_port_set_qlimit(mach_task_self(), port, 1));
    MUST(send_number(port, 0, MACH_PORT_NULL, 0, 0));
    pthread_create(&threads[0], NULL, send_one, &first);
    until_senders_wait(1);
    pthread_create(&threads[1], NULL, send_one, &second);
    until_senders_wait(2);
    pthread_cancel(threads[0]);
    pthread_join(threads[0], NULL);
    IS(is_filled(first.data, 5000, 1), true);
    give_back(first.data, 5000);
    memset(second.data, 0, 6000);
    MUST(receive_now(room, sizeof longest, port, 0));
    MUST(mach_msg(&received.head, MACH_RCV_MSG, 0, sizeof received, port, 0, MACH_PORT_NULL));
    pthread_join(threads[1], NULL);
    IS(received.type.msgtl_number, 6000);
    IS(is_filled(received.data, 6000, 2), true);
    give_back(received.data, 6000);
    MUST(mach_port_destroy(mach_task_self(), port));
}

enum { SENDERS = 3, ROUNDS = 60 };

static size_t size_of_round(int round) { return (size_t)(round * 331 % 9000 + 1); }

static void *send_many(void *port)
{
    for (int i = 0; i < ROUNDS; i++) {
        sending what = { *(mach_port_t *)port, filled_pages(size_of_round(i), (unsigned)i), size_of_round(i) };
        send_one(&what);
    }
    return NULL;
}

static void *receive_many(void *port)
{
    for (int i = 0; i < SENDERS * ROUNDS / 2; i++) {
        data_message message;
        MUST(mach_msg(&message.head, MACH_RCV_MSG, 0, sizeof message, *(mach_port_t *)port, 0, MACH_PORT_NULL));
        IS(is_filled(message.data, message.type.msgtl_number, (unsigned char)message.data[0]), true);
        MUST(vm_deallocate(mach_task_self(), (vm_address_t)message.data, message.type.msgtl_number));
    }
    return NULL;
}

static void test_threads(void)
{
    mach_port_t port = new_port();
    pthread_t threads[SENDERS + 2];
    MUST(mach_port_set_qlimit(mach_task_self(), port, 1));
    for (int i = 0; i < SENDERS; i++)
        pthread_create(&threads[i], NULL, send_many, &port);
    for (int i = 0; i < 2; i++)
        pthread_create(&threads[SENDERS + i], NULL, receive_many, &port);
    for (int i = 0; i < SENDERS + 2; i++)
        pthread_join(threads[i], NULL);
    MUST(mach_port_destroy(mach_task_self(), port));
}

/* ---- without the option ---- */

static void test_off(void)
{
    const uint32_t marker = word_of(item_head(254, 0, 0, true)), item = word_of(item_head(MACH_MSG_TYPE_CHAR, 8, 4, true));
    const uint32_t words[] = { marker, marker, item, 7 };
    mach_port_t port = new_port();
    char *const data = filled_pages(100, 3);
    data_message message = with_data(port, data, 100, true);
    WANT(send_now(&message.head), MACH_SEND_INVALID_TYPE);
    IS(is_filled(data, 100, 3), true);
    MUST(pass_words(port, words, 4, sizeof longest));
    IS(memcmp(longest + 6, words, sizeof words), 0);
    give_back(data, 100);
    MUST(mach_port_destroy(mach_task_self(), port));
}

int main(int argc, char **argv)
{
    if (argc > 1 && strcmp(argv[1], "off") == 0) {
        test_off();
        return ends();
    }
    test_sizes();
    test_items();
    test_rights();
    test_large();
    test_set();
    test_too_long();
    test_deallocate();
    test_refused();
    test_crafted();
    test_many();
    test_any();
    test_server();
    test_cancelled();
    test_threads();
    return ends();
}
