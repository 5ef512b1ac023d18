/*
 * Sends messages for several addresses through one sender without an address, with Qpid Proton's engine in C.
 *
 *     cc -o relay clients/relay.c -lqpid-proton
 *     relay HOST PORT COUNT ADDRESS...
 *
 * One connection has a receiver for each ADDRESS, and behind these a sender that names no target address. COUNT messages are sent
 * for each ADDRESS, by turns, each of which names its address itself, and one for an address that has no receiver. What comes is
 * accepted. Where all outcomes are there it prints a line for each ADDRESS, how many messages came in their order, and one for what
 * the sender was told.
 *
 * Its status is 0 where the connection ended as it should, 1 where the router refused something, 64 where the words are wrong.
 */
#include <proton/condition.h>
#include <proton/connection.h>
#include <proton/delivery.h>
#include <proton/link.h>
#include <proton/message.h>
#include <proton/proactor.h>
#include <proton/session.h>
#include <proton/transport.h>

#include <stdbool.h>
#include <stdint.h>
#include <stdio.h>
#include <stdlib.h>
#include <string.h>

enum { MOST_ADDRESSES = 16, CREDIT = 50, LARGEST = 1024, WORDS_FAULT = 64 };

static const char *const nobody = "relay/nobody";

static struct {
    pn_proactor_t *proactor;
    pn_message_t *message;
    char **addresses;
    size_t count; /* of addresses */
    size_t each;  /* messages for each of them */
    size_t links; /* receivers that the router has answered */
    size_t sent;
    size_t came[MOST_ADDRESSES];  /* in their order */
    size_t accepted, released, others;
    bool is_wrong;
} relay;

/* The messages of all addresses, and the one for nobody. */
static size_t all_messages(void) {
    return relay.count * relay.each + 1;
}

static const char *address_of(size_t number) {
    return number < relay.count * relay.each ? relay.addresses[number % relay.count] : nobody;
}

/* Sends the next message on the link: its body is its number among those of its address. */
static void send_next(pn_link_t *sender) {
    char octets[LARGEST];
    size_t size = sizeof octets;
    uint64_t tag = relay.sent;

    pn_message_clear(relay.message);
    pn_message_set_address(relay.message, address_of(relay.sent));
    pn_data_put_ulong(pn_message_body(relay.message), relay.sent / relay.count);
    if (pn_message_encode(relay.message, octets, &size) != 0) {
        relay.is_wrong = true;
        return;
    }
    pn_delivery(sender, pn_dtag((const char *)&tag, sizeof tag));
    pn_link_send(sender, octets, size);
    pn_link_advance(sender);
    relay.sent++;
}

/* The place of a receiver's address. */
static size_t place_of(pn_link_t *receiver) {
    return (size_t)(uintptr_t)pn_link_get_context(receiver);
}

/* Takes a message that is whole, and accepts it. */
static void take(pn_delivery_t *delivery) {
    char octets[LARGEST];
    pn_link_t *receiver = pn_delivery_link(delivery);
    size_t place = place_of(receiver);
    ssize_t size = pn_link_recv(receiver, octets, sizeof octets);

    if (size > 0 && pn_message_decode(relay.message, octets, (size_t)size) == 0) {
        pn_data_t *body = pn_message_body(relay.message);
        const char *to = pn_message_get_address(relay.message);
        if (pn_data_next(body) && pn_data_get_ulong(body) == relay.came[place] && strcmp(to, relay.addresses[place]) == 0) {
            relay.came[place]++;
        }
    }
    pn_delivery_update(delivery, PN_ACCEPTED);
    pn_delivery_settle(delivery);
    pn_link_flow(receiver, 1);
}

/* Counts the outcome of a message, and ends where it is the last. */
static void count_outcome(pn_delivery_t *delivery) {
    switch (pn_delivery_remote_state(delivery)) {
    case PN_ACCEPTED: relay.accepted++; break;
    case PN_RELEASED: relay.released++; break;
    default: relay.others++;
    }
    pn_delivery_settle(delivery);
    if (relay.accepted + relay.released + relay.others == all_messages()) {
        pn_connection_close(pn_session_connection(pn_link_session(pn_delivery_link(delivery))));
    }
}

/* Opens the connection, with a receiver for each address. */
static void begin(pn_connection_t *connection) {
    pn_connection_set_container(connection, "relay");
    pn_connection_open(connection);
    pn_session_t *session = pn_session(connection);
    pn_session_open(session);
    for (size_t place = 0; place < relay.count; place++) {
        pn_link_t *receiver = pn_receiver(session, relay.addresses[place]);
        pn_terminus_set_address(pn_link_source(receiver), relay.addresses[place]);
        pn_link_set_context(receiver, (void *)(uintptr_t)place);
        pn_link_open(receiver);
        pn_link_flow(receiver, CREDIT);
    }
}

/* Behind the answers to all receivers, opens a sender whose target names no address. */
static void opened(pn_link_t *link) {
    if (pn_link_is_receiver(link) && ++relay.links == relay.count) {
        pn_link_open(pn_sender(pn_link_session(link), "anonymous"));
    }
}

/* Says what is wrong, if something is, and closes. */
static void look_for(pn_condition_t *condition, pn_connection_t *connection) {
    if (pn_condition_is_set(condition)) {
        fprintf(stderr, "relay: %s\n", pn_condition_get_name(condition));
        relay.is_wrong = true;
    }
    pn_connection_close(connection);
}

/* What comes of an event; false behind the last. */
static bool handle(pn_event_t *event) {
    switch (pn_event_type(event)) {
    case PN_CONNECTION_INIT: begin(pn_event_connection(event)); break;
    case PN_LINK_REMOTE_OPEN: opened(pn_event_link(event)); break;
    case PN_LINK_FLOW:
        while (pn_link_is_sender(pn_event_link(event)) && pn_link_credit(pn_event_link(event)) > 0 && relay.sent < all_messages()) {
            send_next(pn_event_link(event));
        }
        break;
    case PN_DELIVERY: {
        pn_delivery_t *delivery = pn_event_delivery(event);
        if (pn_link_is_sender(pn_event_link(event))) {
            if (pn_delivery_updated(delivery)) {
                count_outcome(delivery);
            }
        } else if (pn_delivery_readable(delivery) && !pn_delivery_partial(delivery)) {
            take(delivery);
        }
        break;
    }
    case PN_TRANSPORT_CLOSED: look_for(pn_transport_condition(pn_event_transport(event)), pn_event_connection(event)); break;
    case PN_CONNECTION_REMOTE_CLOSE:
        look_for(pn_connection_remote_condition(pn_event_connection(event)), pn_event_connection(event));
        break;
    case PN_SESSION_REMOTE_CLOSE:
        look_for(pn_session_remote_condition(pn_event_session(event)), pn_event_connection(event));
        break;
    case PN_LINK_REMOTE_CLOSE:
    case PN_LINK_REMOTE_DETACH: look_for(pn_link_remote_condition(pn_event_link(event)), pn_event_connection(event)); break;
    case PN_PROACTOR_INACTIVE: return false;
    default: break;
    }
    return true;
}

static void run(void) {
    for (;;) {
        pn_event_batch_t *events = pn_proactor_wait(relay.proactor);
        for (pn_event_t *event = pn_event_batch_next(events); event; event = pn_event_batch_next(events)) {
            if (!handle(event)) {
                return;
            }
        }
        pn_proactor_done(relay.proactor, events);
    }
}

int main(int argc, char **argv) {
    char address[PN_MAX_ADDR];

    if (argc < 5 || argc - 4 > MOST_ADDRESSES || atoi(argv[3]) < 1) {
        fprintf(stderr, "relay HOST PORT COUNT ADDRESS...\n");
        return WORDS_FAULT;
    }
    relay.each = (size_t)atoi(argv[3]);
    relay.addresses = argv + 4;
    relay.count = (size_t)(argc - 4);
    relay.message = pn_message();
    relay.proactor = pn_proactor();
    pn_proactor_addr(address, sizeof address, argv[1], argv[2]);
    pn_proactor_connect2(relay.proactor, NULL, NULL, address);
    run();
    for (size_t place = 0; place < relay.count; place++) {
        printf("%s: %zu messages in their order\n", relay.addresses[place], relay.came[place]);
    }
    printf("outcomes: %zu accepted, %zu released, %zu others\n", relay.accepted, relay.released, relay.others);
    pn_proactor_free(relay.proactor);
    pn_message_free(relay.message);
    return relay.is_wrong ? 1 : 0;
}
