/*
 * Loads a router of AMQP 1.0 with messages, by raw frames and one thread, and checks all that it receives.
 *
 *     cc -O2 -o load clients/load.c
 *     load PORT PAIRS MESSAGES SIZE CREDIT IN_FLIGHT
 *
 * PAIRS producers and as many consumers connect to PORT of 127.0.0.1, with a connection, a session and a link for each, and
 * an address for each pair. Each producer sends MESSAGES messages of SIZE octets of data, unsettled; at most IN_FLIGHT of
 * them wait for their outcome, and no more go than the router gives credit for. Each consumer gives credit for CREDIT
 * messages, anew whenever half of it is used, and accepts each message by a disposition of its own.
 *
 * Each message has to arrive once, in order and unaltered, and each outcome has to be accepted, once, and settled. Then it
 * prints this line, before it closes the connections:
 *
 *     exchanged messages=N seconds=S processor=P p50=L p99=M
 *
 * N is all messages together; S the seconds from when every producer had credit to when the last outcome had come; P the
 * seconds of processor time that the load itself took meanwhile; L and M the microseconds from when a message was made to
 * when its outcome was read, for half of the messages and for 99 in a hundred.
 *
 * It ends with status 0 where all was so and the router closed each connection when it was asked to; with 1 where something
 * was wrong, which standard error says; with 64 where the words are wrong. It gives up when nothing came for 20 seconds.
 */
#define _XOPEN_SOURCE 700
#include <errno.h>
#include <fcntl.h>
#include <netinet/in.h>
#include <netinet/tcp.h>
#include <poll.h>
#include <stdarg.h>
#include <stdbool.h>
#include <stdint.h>
#include <stdio.h>
#include <stdlib.h>
#include <string.h>
#include <sys/resource.h>
#include <sys/socket.h>
#include <time.h>
#include <unistd.h>

/* The descriptors of the performatives, of what stands in them, and of a message's data. */
enum { OPEN = 0x10, BEGIN, ATTACH, FLOW, TRANSFER, DISPOSITION, DETACH, END, CLOSE };
enum { ACCEPTED = 0x24, SOURCE = 0x28, TARGET = 0x29, DATA = 0x75 };

/* The codes of the values that are written or looked at; a boolean's code is its value. */
enum { NOTHING = 0x40, TRUE = 0x41, FALSE = 0x42, ZERO = 0x43, NO_FIELDS = 0x45, SMALL_ULONG = 0x53, UINT = 0x70 };
enum { SHORT_BINARY = 0xa0, SHORT_STRING = 0xa1, BINARY = 0xb0, SHORT_LIST = 0xc0, LIST = 0xd0 };

enum {
    HEADER = 8,            /* octets of a protocol header, and of the head of a frame */
    LARGEST_FRAME = 16384, /* octets of a frame that is written, or may come */
    LEAST_LARGEST = 512,   /* octets of a frame that everyone takes */
    TRANSFER_HEAD = 64,    /* more octets than all of a transfer but its payload */
    SESSION_WINDOW = 2048, /* transfers that a session may take before its window is given anew */
    MOST_FIELDS = 14,      /* more than the performatives that come have */
    DATA_HEAD = 8,         /* octets of a message before its data */
    STRIDE = 256,          /* octets of data from one number of the message to the next */
    LEAST_SIZE = 8,        /* octets of data that the number needs, with the pair's */
    MOST_QUEUED = 131072,  /* octets that wait to be written, above which a producer adds none */
    READ_ROOM = 131072,    /* octets that are read at once */
    PATIENCE = 20000,      /* milliseconds without a sign of the router */
    TRIES = 500            /* to connect, each 10 milliseconds after the last */
};

static const unsigned char PROTOCOL[HEADER] = {'A', 'M', 'Q', 'P', 0, 1, 0, 0};

/* Octets from start to end are still to be used. */
struct buffer {
    unsigned char *octets;
    size_t start, end, room;
};

struct reader {
    const unsigned char *at, *end;
};

/* A value: its code, its number where it has one, and the descriptor before it, or 0. */
struct value {
    unsigned code;
    uint64_t number, descriptor;
};

struct performative {
    unsigned code;
    size_t count;
    struct value fields[MOST_FIELDS];
    struct reader payload;
};

/* A producer or a consumer, with its connection. */
struct client {
    struct load *load;
    bool is_producer, has_header, is_closed;
    unsigned pair;
    int socket;
    struct buffer in, out;
    uint32_t next_id;       /* of the next transfer to be sent, or to come */
    uint32_t window;        /* transfers that may be sent, or may come */
    uint32_t first_count;   /* the delivery-count that the router began with, towards a consumer */
    uint32_t credit;        /* messages that may be sent, or may come */
    uint32_t largest_frame; /* that the router takes */
    uint32_t number;        /* of messages that were sent whole, or came whole */
    uint32_t delivery;      /* the delivery-id of the message that comes */
    uint32_t outcomes;      /* that the producer was told */
    unsigned char *message; /* the one that is sent, or has to come, next */
    size_t part;            /* octets of it that were sent, or came */
    uint64_t *sent_at;      /* for each message the moment at which it was made, while it waits for its outcome, else 0 */
};

struct load {
    uint32_t port, pairs, messages, size, credit, in_flight;
    struct client *clients; /* the producers, then the consumers */
    struct pollfd *polled;  /* for each client */
    bool is_started;
    uint64_t arriving, waiting; /* messages that have not come yet, and outcomes */
    uint64_t *latencies;        /* nanoseconds, for each outcome that came */
};

/* Says what is wrong with a client, or with none, and ends. */
static void fail(const struct client *client, const char *format, ...)
{
    va_list words;
    fprintf(stderr, "load: ");
    if (client != NULL) {
        fprintf(stderr, "%s %u: ", client->is_producer ? "producer" : "consumer", client->pair);
    }
    va_start(words, format);
    vfprintf(stderr, format, words);
    va_end(words);
    fprintf(stderr, "\n");
    exit(1);
}

/* Memory of so many octets, all 0. */
static void *take_memory(size_t count, size_t size)
{
    void *memory = calloc(count > 0 ? count : 1, size);
    if (memory == NULL) {
        fail(NULL, "no memory");
    }
    return memory;
}

/* Nanoseconds since some moment. */
static uint64_t now(void)
{
    struct timespec time;
    clock_gettime(CLOCK_MONOTONIC, &time);
    return (uint64_t)time.tv_sec * 1000000000u + (uint64_t)time.tv_nsec;
}

/* The seconds of processor time that this process took. */
static double processor_seconds(void)
{
    struct rusage usage;
    getrusage(RUSAGE_SELF, &usage);
    double seconds = (double)(usage.ru_utime.tv_sec + usage.ru_stime.tv_sec);
    return seconds + (double)(usage.ru_utime.tv_usec + usage.ru_stime.tv_usec) / 1e6;
}

/* Buffers, and what is written into them. */

/* Makes room for so many octets behind the end. */
static void reserve(struct buffer *buffer, size_t length)
{
    if (buffer->end + length <= buffer->room) {
        return;
    }
    if (buffer->start > 0) {
        memmove(buffer->octets, buffer->octets + buffer->start, buffer->end - buffer->start);
        buffer->end -= buffer->start;
        buffer->start = 0;
    }
    if (buffer->end + length > buffer->room) {
        buffer->room = 2 * (buffer->end + length);
        buffer->octets = realloc(buffer->octets, buffer->room);
        if (buffer->octets == NULL) {
            fail(NULL, "no memory");
        }
    }
}

static void set_uint(unsigned char *octets, uint32_t number)
{
    for (int k = 0; k < 4; k++) {
        octets[k] = (unsigned char)(number >> (24 - 8 * k));
    }
}

/* Octets go behind what is in the buffer, where there is room for them. */
static void put_octets(struct buffer *out, const void *octets, size_t length)
{
    memcpy(out->octets + out->end, octets, length);
    out->end += length;
}

static void put_octet(struct buffer *out, unsigned octet)
{
    out->octets[out->end++] = (unsigned char)octet;
}

static void put_uint(struct buffer *out, uint32_t number)
{
    put_octet(out, UINT);
    set_uint(out->octets + out->end, number);
    out->end += 4;
}

static void put_string(struct buffer *out, const char *text)
{
    put_octet(out, SHORT_STRING);
    put_octet(out, (unsigned)strlen(text));
    put_octets(out, text, strlen(text));
}

/* A described list of at most 254 octets begins; answers where, which end_list needs. */
static size_t begin_list(struct buffer *out, unsigned descriptor, unsigned count)
{
    size_t list = out->end;
    put_octet(out, 0);
    put_octet(out, SMALL_ULONG);
    put_octet(out, descriptor);
    put_octet(out, SHORT_LIST);
    put_octet(out, 0);
    put_octet(out, count);
    return list;
}

/* Fills in the size of a list, which counts what is behind it. */
static void end_list(struct buffer *out, size_t list)
{
    out->octets[list + 4] = (unsigned char)(out->end - (list + 5));
}

/* A frame of channel 0 begins, with a performative; answers where. There is room for all of a frame. */
static size_t begin_frame(struct buffer *out, unsigned performative, unsigned count)
{
    static const unsigned char head[HEADER] = {0, 0, 0, 0, 2, 0, 0, 0};
    reserve(out, LARGEST_FRAME);
    size_t frame = out->end;
    put_octets(out, head, HEADER);
    begin_list(out, performative, count);
    return frame;
}

/* The performative ends; what still goes into the frame is payload. */
static void end_performative(struct buffer *out, size_t frame)
{
    end_list(out, frame + HEADER);
}

static void end_frame(struct buffer *out, size_t frame)
{
    set_uint(out->octets + frame, (uint32_t)(out->end - frame));
}

/* What is read. */

static uint64_t read_number(struct reader *in, size_t width)
{
    uint64_t number = 0;
    if ((size_t)(in->end - in->at) < width) {
        fail(NULL, "a frame ends within a value");
    }
    for (size_t k = 0; k < width; k++) {
        number = number << 8 | *in->at++;
    }
    return number;
}

/* How many octets a value of this code has, behind its code and its size. */
static size_t read_width(struct reader *in, unsigned code)
{
    static const unsigned char widths[] = {0, 1, 2, 4, 8, 16};
    if (code < 0x40) {
        fail(NULL, "a value begins with the octet 0x%02x", code);
    }
    if (code < 0xa0) {
        return widths[(code >> 4) - 4];
    }
    return (size_t)read_number(in, (code >> 4) % 2 == 0 ? 1 : 4);
}

/* The next value. What has more than 8 octets, or is a text or a list, is passed over. */
static struct value read_value(struct reader *in)
{
    struct value value = {(unsigned)read_number(in, 1), 0, 0};
    if (value.code == 0) {
        uint64_t descriptor = read_value(in).number;
        value = read_value(in);
        value.descriptor = descriptor;
        return value;
    }
    size_t width = read_width(in, value.code);
    if (width <= 8 && value.code < 0xa0) {
        value.number = value.code == TRUE ? 1 : read_number(in, width);
    } else if ((size_t)(in->end - in->at) < width) {
        fail(NULL, "a frame ends within a value");
    } else {
        in->at += width;
    }
    return value;
}

/* The performative in the body of a frame, and where its payload is. */
static void read_performative(struct reader *body, struct performative *it)
{
    if (read_number(body, 1) != 0) {
        fail(NULL, "a frame's body is not described");
    }
    it->code = (unsigned)read_value(body).number;
    unsigned list = (unsigned)read_number(body, 1);
    if (list != SHORT_LIST && list != LIST && list != NO_FIELDS) {
        fail(NULL, "a performative is no list: 0x%02x", list);
    }
    size_t width = list == LIST ? 4 : 1;
    if (list != NO_FIELDS) {
        read_number(body, width);
    }
    it->count = list == NO_FIELDS ? 0 : (size_t)read_number(body, width);
    if (it->count > MOST_FIELDS) {
        fail(NULL, "a performative has %zu fields", it->count);
    }
    for (size_t k = 0; k < it->count; k++) {
        it->fields[k] = read_value(body);
    }
    it->payload = *body;
}

/* The number in a field, or what stands for none. */
static uint32_t number_of(const struct performative *it, size_t field, uint32_t otherwise)
{
    bool is_there = field < it->count && it->fields[field].code != NOTHING;
    return is_there ? (uint32_t)it->fields[field].number : otherwise;
}

/* Messages. */

/* The octets of a message of this client's pair, but for its number. */
static unsigned char *first_message(const struct client *client)
{
    uint32_t size = client->load->size;
    unsigned char *message = take_memory(DATA_HEAD + size, 1);
    message[1] = SMALL_ULONG;
    message[2] = DATA;
    message[3] = BINARY;
    set_uint(message + 4, size);
    for (uint32_t k = 0; k < size; k++) {
        message[DATA_HEAD + k] = (unsigned char)(k ^ k >> 8 ^ 7 * client->pair);
    }
    set_uint(message + DATA_HEAD + 4, client->pair);
    return message;
}

/* How many messages were sent, or came, at least in part: what the delivery-count of a link has grown by. */
static uint32_t begun(const struct client *client)
{
    return client->number + (client->part > 0 ? 1 : 0);
}

/* Makes it the message of the client's number, which each 256 octets of data begin with. */
static void stamp(struct client *client)
{
    for (size_t k = 0; k + 4 <= client->load->size; k += STRIDE) {
        set_uint(client->message + DATA_HEAD + k, client->number);
    }
}

/* What the clients write. */

/* The header, and the frames that open a connection and a session. */
static void open_session(struct buffer *out)
{
    reserve(out, HEADER);
    put_octets(out, PROTOCOL, HEADER);

    size_t frame = begin_frame(out, OPEN, 3);
    put_string(out, "load");
    put_octet(out, NOTHING);
    put_uint(out, LARGEST_FRAME);
    end_performative(out, frame);
    end_frame(out, frame);

    frame = begin_frame(out, BEGIN, 4);
    put_octet(out, NOTHING);
    put_octet(out, ZERO);
    put_uint(out, SESSION_WINDOW);
    put_uint(out, SESSION_WINDOW);
    end_performative(out, frame);
    end_frame(out, frame);
}

/* A link begins, whose target is the pair's address for a producer, and its source for a consumer. */
static void attach(struct client *client)
{
    struct buffer *out = &client->out;
    char address[32];
    snprintf(address, sizeof address, "load/%u", client->pair);
    size_t frame = begin_frame(out, ATTACH, 10);
    put_string(out, address);
    put_octet(out, ZERO);
    put_octet(out, client->is_producer ? FALSE : TRUE);
    put_octet(out, NOTHING);
    put_octet(out, NOTHING);
    if (client->is_producer) {
        put_octet(out, NOTHING);
    }
    size_t list = begin_list(out, client->is_producer ? TARGET : SOURCE, 1);
    put_string(out, address);
    end_list(out, list);
    if (!client->is_producer) {
        put_octet(out, NOTHING);
    }
    put_octet(out, NOTHING);
    put_octet(out, NOTHING);
    put_octet(out, client->is_producer ? ZERO : NOTHING);
    end_performative(out, frame);
    end_frame(out, frame);
}

/* A consumer gives credit and window anew. */
static void give(struct client *client)
{
    struct buffer *out = &client->out;
    client->window = SESSION_WINDOW;
    client->credit = client->load->credit;
    size_t frame = begin_frame(out, FLOW, 7);
    put_uint(out, client->next_id);
    put_uint(out, client->window);
    put_octet(out, ZERO);
    put_uint(out, SESSION_WINDOW);
    put_octet(out, ZERO);
    put_uint(out, client->first_count + begun(client));
    put_uint(out, client->credit);
    end_performative(out, frame);
    end_frame(out, frame);
}

/* Whether this is a producer that may write a transfer. */
static bool may_send(const struct client *client)
{
    const struct load *load = client->load;
    if (!client->is_producer || !load->is_started || client->window == 0) {
        return false;
    }
    bool has_more = client->number < load->messages && client->number - client->outcomes < load->in_flight;
    return client->part > 0 || (has_more && client->credit > 0);
}

/* A producer writes a transfer, with all of a message or a part of it. */
static void send_part(struct client *client)
{
    struct buffer *out = &client->out;
    size_t left = DATA_HEAD + client->load->size - client->part;
    size_t most = client->largest_frame - TRANSFER_HEAD;
    size_t length = left < most ? left : most;
    if (client->part == 0) {
        stamp(client);
        client->sent_at[client->number] = now();
        client->credit--;
    }
    size_t frame = begin_frame(out, TRANSFER, 6);
    put_octet(out, ZERO);
    put_uint(out, client->number);
    put_octet(out, SHORT_BINARY);
    put_octet(out, 4);
    set_uint(out->octets + out->end, client->number);
    out->end += 4;
    put_octet(out, ZERO);
    put_octet(out, FALSE);
    put_octet(out, length < left ? TRUE : FALSE);
    end_performative(out, frame);
    put_octets(out, client->message + client->part, length);
    end_frame(out, frame);

    client->next_id++;
    client->window--;
    client->part += length;
    if (length == left) {
        client->part = 0;
        client->number++;
    }
}

/* A consumer accepts the message that came. */
static void accept_message(struct client *client)
{
    static const unsigned char accepted[] = {0, SMALL_ULONG, ACCEPTED, NO_FIELDS};
    struct buffer *out = &client->out;
    size_t frame = begin_frame(out, DISPOSITION, 5);
    put_octet(out, TRUE);
    put_uint(out, client->delivery);
    put_octet(out, NOTHING);
    put_octet(out, TRUE);
    put_octets(out, accepted, sizeof accepted);
    end_performative(out, frame);
    end_frame(out, frame);
}

/* What the router's frames do to a client. */

/* The router says how large a frame it takes: 512 octets, or more (part 2, 2.7.1). */
static void hear_open(struct client *client, const struct performative *it)
{
    uint32_t largest = number_of(it, 2, LARGEST_FRAME);
    if (largest < LEAST_LARGEST) {
        fail(client, "the router takes frames of no more than %u octets", largest);
    }
    client->largest_frame = largest < LARGEST_FRAME ? largest : LARGEST_FRAME;
}

/* The router's end of the link is there, so that a consumer can give credit. */
static void hear_attach(struct client *client, const struct performative *it)
{
    if (!client->is_producer) {
        client->first_count = number_of(it, 9, 0);
        give(client);
    }
}

/* Ends where octets of a message are not those that the producer sent. */
static void compare(const struct client *client, const struct reader *payload)
{
    size_t length = (size_t)(payload->end - payload->at), left = DATA_HEAD + client->load->size - client->part;
    if (length > left) {
        fail(client, "message %u is longer than it was sent", client->number);
    }
    const unsigned char *due = client->message + client->part;
    for (size_t k = 0; k < length && memcmp(due, payload->at, length) != 0; k++) {
        if (due[k] != payload->at[k]) {
            fail(client, "octet %zu of message %u is 0x%02x, due is 0x%02x; or another message came in its place",
                 client->part + k, client->number, payload->at[k], due[k]);
        }
    }
}

/* A transfer comes to a consumer. */
static void hear_transfer(struct client *client, const struct performative *it)
{
    struct load *load = client->load;
    if (client->is_producer || client->window == 0 || number_of(it, 9, 0) != 0) {
        fail(client, "a transfer that may not come");
    }
    if (client->part == 0) {
        if (client->number == load->messages || client->credit == 0) {
            fail(client, "a message more than was sent, or than there was credit for");
        }
        client->credit--;
        client->delivery = number_of(it, 1, 0);
        stamp(client);
    }
    client->next_id++;
    client->window--;
    compare(client, &it->payload);
    client->part += (size_t)(it->payload.end - it->payload.at);
    if (number_of(it, 5, 0) == 0) {
        if (client->part != DATA_HEAD + load->size) {
            fail(client, "message %u came with %zu octets of %u", client->number, client->part, DATA_HEAD + load->size);
        }
        client->part = 0;
        client->number++;
        load->arriving--;
        if (number_of(it, 4, 0) == 0) {
            accept_message(client);
        }
    }
    if (client->credit <= load->credit / 2 || client->window <= SESSION_WINDOW / 2) {
        give(client);
    }
}

/* Outcomes come to a producer. */
static void hear_disposition(struct client *client, const struct performative *it)
{
    struct load *load = client->load;
    uint32_t first = number_of(it, 1, 0), last = number_of(it, 2, first);
    if (!client->is_producer || number_of(it, 0, 0) == 0 || last < first || last >= load->messages) {
        fail(client, "a disposition of no message");
    }
    if (it->count < 5 || it->fields[4].descriptor != ACCEPTED || number_of(it, 3, 0) == 0) {
        fail(client, "messages %u to %u are not told accepted and settled", first, last);
    }
    uint64_t moment = now();
    for (uint32_t k = first; k <= last; k++) {
        if (client->sent_at[k] == 0) {
            fail(client, "message %u is told accepted twice, or before it was sent", k);
        }
        load->latencies[(uint64_t)load->pairs * load->messages - load->waiting] = moment - client->sent_at[k];
        client->sent_at[k] = 0;
        client->outcomes++;
        load->waiting--;
    }
}

/* A flow comes: part 2, 2.5.6 and 2.6.7 of the standard say what may be sent then. */
static void hear_flow(struct client *client, const struct performative *it)
{
    if (!client->is_producer) {
        return;
    }
    client->window = number_of(it, 0, 0) + number_of(it, 1, 0) - client->next_id;
    if (number_of(it, 4, UINT32_MAX) == 0) {
        client->credit = number_of(it, 5, 0) + number_of(it, 6, 0) - begun(client);
    }
}

/* The router ends a link, a session or a connection. That is as it should where the client asked for it. */
static void hear_end(struct client *client, const unsigned char *frame, size_t size, unsigned code)
{
    if (code == CLOSE && client->load->is_started && client->load->waiting == 0 && client->load->arriving == 0) {
        client->is_closed = true;
        return;
    }
    fprintf(stderr, "load: the router says: ");
    for (size_t k = HEADER; k < size; k++) {
        fputc(frame[k] >= ' ' && frame[k] <= '~' ? frame[k] : '.', stderr);
    }
    fputc('\n', stderr);
    fail(client, "the router ended the %s", code == DETACH ? "link" : code == END ? "session" : "connection");
}

static void hear_frame(struct client *client, const unsigned char *frame, size_t size)
{
    struct performative it;
    struct reader body = {frame + 4 * (size_t)frame[4], frame + size};
    if (4 * (size_t)frame[4] > size || 4 * frame[4] < HEADER || frame[5] != 0) {
        fail(client, "a frame with a head that is wrong");
    }
    if (body.at == body.end) {
        return;
    }
    read_performative(&body, &it);
    switch (it.code) {
    case OPEN:
        hear_open(client, &it);
        break;
    case BEGIN:
        client->next_id = client->is_producer ? 0 : number_of(&it, 1, 0);
        client->window = client->is_producer ? number_of(&it, 2, 0) : SESSION_WINDOW;
        break;
    case ATTACH:
        hear_attach(client, &it);
        break;
    case FLOW:
        hear_flow(client, &it);
        break;
    case TRANSFER:
        hear_transfer(client, &it);
        break;
    case DISPOSITION:
        hear_disposition(client, &it);
        break;
    default:
        hear_end(client, frame, size, it.code);
    }
}

/* Sockets. */

/* Hears all that came whole. */
static void hear(struct client *client)
{
    struct buffer *in = &client->in;
    if (!client->has_header && in->end - in->start >= HEADER) {
        if (memcmp(in->octets + in->start, PROTOCOL, HEADER) != 0) {
            fail(client, "the router does not begin with the header of AMQP 1.0");
        }
        client->has_header = true;
        in->start += HEADER;
    }
    while (client->has_header && in->end - in->start >= HEADER) {
        struct reader size_of = {in->octets + in->start, in->octets + in->end};
        size_t size = (size_t)read_number(&size_of, 4);
        if (size < HEADER || size > LARGEST_FRAME) {
            fail(client, "a frame of %zu octets", size);
        }
        if (in->end - in->start < size) {
            break;
        }
        hear_frame(client, in->octets + in->start, size);
        in->start += size;
    }
}

/* Reads what came, once. */
static void read_some(struct client *client)
{
    reserve(&client->in, READ_ROOM);
    ssize_t length = read(client->socket, client->in.octets + client->in.end, READ_ROOM);
    if (length < 0 && (errno == EAGAIN || errno == EINTR)) {
        return;
    }
    if (length <= 0) {
        fail(client, "the router left: %s", length == 0 ? "end of stream" : strerror(errno));
    }
    client->in.end += (size_t)length;
    hear(client);
    if (client->is_closed) {
        close(client->socket);
        client->socket = -1;
    }
}

/* Writes what the socket takes, once. */
static void write_some(struct client *client)
{
    struct buffer *out = &client->out;
    if (client->is_closed || out->start == out->end) {
        return;
    }
    ssize_t length = send(client->socket, out->octets + out->start, out->end - out->start, MSG_NOSIGNAL);
    if (length < 0 && errno != EAGAIN && errno != EINTR) {
        fail(client, "the router does not take what is written: %s", strerror(errno));
    }
    out->start += length > 0 ? (size_t)length : 0;
    if (out->start == out->end) {
        out->start = out->end = 0;
    }
}

/* Each client writes what it can, and hears what came until then; where nothing did, this waits. */
static void take_turn(struct load *load)
{
    unsigned count = 2 * load->pairs;
    for (unsigned k = 0; k < count; k++) {
        struct client *client = &load->clients[k];
        while (may_send(client) && client->out.end - client->out.start < MOST_QUEUED) {
            send_part(client);
        }
        write_some(client);
        bool has_more = client->out.start < client->out.end || may_send(client);
        load->polled[k].fd = client->socket;
        load->polled[k].events = has_more ? POLLIN | POLLOUT : POLLIN;
    }
    int ready = poll(load->polled, count, PATIENCE);
    if (ready == 0) {
        fail(NULL, "nothing came for %d seconds, while %llu messages had not arrived and %llu outcomes were not told",
             PATIENCE / 1000, (unsigned long long)load->arriving, (unsigned long long)load->waiting);
    }
    for (unsigned k = 0; k < count && ready > 0; k++) {
        if (load->polled[k].revents & ~POLLOUT) {
            read_some(&load->clients[k]);
        }
    }
}

/* A socket that is connected, as soon as the router listens. */
static int connect_to(uint32_t port)
{
    struct sockaddr_in address = {0};
    struct timespec pause = {0, 10000000};
    int yes = 1;
    address.sin_family = AF_INET;
    address.sin_port = htons((uint16_t)port);
    address.sin_addr.s_addr = htonl(INADDR_LOOPBACK);
    for (int tries = 0; tries < TRIES; tries++) {
        int it = socket(AF_INET, SOCK_STREAM, 0);
        if (it >= 0 && connect(it, (struct sockaddr *)&address, sizeof address) == 0) {
            setsockopt(it, IPPROTO_TCP, TCP_NODELAY, &yes, sizeof yes);
            fcntl(it, F_SETFL, O_NONBLOCK);
            return it;
        }
        close(it);
        nanosleep(&pause, NULL);
    }
    fail(NULL, "there is no connection to port %u: %s", port, strerror(errno));
    return -1;
}

/* The whole. */

/* Connects all clients, and waits until every producer has credit. */
static void begin_load(struct load *load)
{
    for (unsigned k = 0; k < 2 * load->pairs; k++) {
        struct client *client = &load->clients[k];
        client->load = load;
        client->is_producer = k < load->pairs;
        client->pair = k % load->pairs;
        client->message = first_message(client);
        client->sent_at = take_memory(client->is_producer ? load->messages : 0, sizeof *client->sent_at);
        client->socket = connect_to(load->port);
        open_session(&client->out);
        attach(client);
    }
    for (unsigned k = 0; k < load->pairs; k++) {
        while (load->clients[k].credit == 0) {
            take_turn(load);
        }
    }
}

static void end_load(struct load *load)
{
    for (unsigned k = 0; k < 2 * load->pairs; k++) {
        struct client *client = &load->clients[k];
        size_t frame = begin_frame(&client->out, CLOSE, 0);
        end_performative(&client->out, frame);
        end_frame(&client->out, frame);
    }
    for (unsigned k = 0; k < 2 * load->pairs; k++) {
        while (!load->clients[k].is_closed) {
            take_turn(load);
        }
    }
}

static int compare_latencies(const void *left, const void *right)
{
    uint64_t a = *(const uint64_t *)left, b = *(const uint64_t *)right;
    return a < b ? -1 : a > b;
}

/* A word as a number, or the end of all. */
static uint32_t read_word(const char *word, unsigned long least, unsigned long most)
{
    char *end;
    unsigned long number = strtoul(word, &end, 10);
    if (*word < '0' || *word > '9' || *end != 0 || number < least || number > most) {
        fprintf(stderr, "load: %s is no number from %lu to %lu\n", word, least, most);
        exit(64);
    }
    return (uint32_t)number;
}

static void read_words(struct load *load, char **words)
{
    load->port = read_word(words[1], 1, 65535);
    load->pairs = read_word(words[2], 1, 1000);
    load->messages = read_word(words[3], 1, 10000000);
    load->size = read_word(words[4], LEAST_SIZE, 16000000);
    load->credit = read_word(words[5], 1, 1000000);
    load->in_flight = read_word(words[6], 1, 1000000);

    load->arriving = load->waiting = (uint64_t)load->pairs * load->messages;
    load->latencies = take_memory((size_t)load->waiting, sizeof *load->latencies);
    load->clients = take_memory(2 * load->pairs, sizeof *load->clients);
    load->polled = take_memory(2 * load->pairs, sizeof *load->polled);
    for (unsigned k = 0; k < 2 * load->pairs; k++) {
        load->polled[k].fd = -1;
    }
}

/* Prints what the exchange took: nanoseconds, and seconds of processor time. */
static void print_figures(const struct load *load, uint64_t nanoseconds, double processor)
{
    size_t all = (size_t)load->pairs * load->messages;
    qsort(load->latencies, all, sizeof *load->latencies, compare_latencies);
    double half = (double)load->latencies[(all - 1) / 2], most = (double)load->latencies[(all - 1) * 99 / 100];
    printf("exchanged messages=%zu seconds=%.4f processor=%.4f p50=%.1f p99=%.1f\n", all, (double)nanoseconds / 1e9, processor,
           half / 1e3, most / 1e3);
    fflush(stdout);
}

int main(int count, char **words)
{
    struct load load = {0};
    if (count != 7) {
        fprintf(stderr, "usage: load PORT PAIRS MESSAGES SIZE CREDIT IN_FLIGHT\n");
        return 64;
    }
    read_words(&load, words);
    begin_load(&load);

    double processor = processor_seconds();
    uint64_t start = now();
    load.is_started = true;
    while (load.arriving > 0 || load.waiting > 0) {
        take_turn(&load);
    }
    uint64_t end = now();
    print_figures(&load, end - start, processor_seconds() - processor);

    end_load(&load);
    return 0;
}
