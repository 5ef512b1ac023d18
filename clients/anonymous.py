#!/usr/bin/python3
"""Tries senders without an address, with Qpid Proton's Python client (Debian: python3-qpid-proton).

anonymous.py HOST:PORT makes a connection for each try, and prints a line for it; its status is 1 where one did not end as it
should. The router has to be started with the words anonymous and multicast:news. anonymous.py --connections prints how many
connections it makes.

A sender is made for no address; each of its messages is for the address that it names itself.
"""
import sys

from proton import Message
from proton.reactor import Container
from proton_tries import HEARD, Try


class Addresses(Try):
    """One sender reaches several addresses, and hears of each message what became of it."""

    # The address of each message, and what its producer is to be told.
    sent = [
        ("one", "accepted"),
        ("two", "rejected"),
        ("one", "accepted"),
        ("news", "accepted"),
        ("nobody", "released"),
        (None, "released"),
        ("two", "rejected"),
    ]
    wanted = [
        "one of one: message 0",
        "one of one: message 2",
        "one of two: message 1",
        "one of two: message 6",
        "first of news: message 3",
        "second of news: message 3",
    ] + [outcome for _, outcome in sent]

    def begin(self, event):
        self.is_sent, self.told, self.got = False, {}, []
        for name, address in (("one", "one"), ("one", "two"), ("first", "news"), ("second", "news")):
            event.container.create_receiver(self.connection, address, name=f"{name} of {address}").flow(10)
        self.sender = event.container.create_sender(self.connection, None, name="anonymous")

    def on_sendable(self, event):
        if self.is_sent or event.sender.credit < len(self.sent):
            return
        self.is_sent = True
        for number, (address, _) in enumerate(self.sent):
            event.sender.send(Message(address=address, body=f"message {number}"))

    def on_message(self, event):
        self.got.append(f"{event.receiver.name}: {event.message.body}")
        if event.receiver.name == "one of two":
            self.reject(event.delivery)
        else:
            self.accept(event.delivery)

    def on_settled(self, event):
        if not event.link.is_sender:
            return
        self.told[int(event.delivery.tag)] = HEARD[event.delivery.remote_state]
        if len(self.told) == len(self.sent):
            names = ["one of one", "one of two", "first of news", "second of news"]
            got = sorted(self.got, key=lambda said: (names.index(said.split(":")[0]), said))
            self.said = got + [self.told[tag] for tag in sorted(self.told)]
            self.end()


class Replies(Try):
    """Requests and their replies go through one sender: the requests to a service, the replies to an address that was made up."""

    wanted = [f"{number}: reply to request {number}" for number in range(3)]

    def begin(self, event):
        self.replies = event.container.create_receiver(self.connection, None, dynamic=True, name="replies")
        self.replies.flow(10)
        self.service = event.container.create_receiver(self.connection, "service", name="service")
        self.service.flow(10)
        self.sender = event.container.create_sender(self.connection, None, name="anonymous")
        self.is_sent = False

    def on_sendable(self, event):
        address = self.replies.remote_source.address
        if self.is_sent or not address:
            return
        self.is_sent = True
        for number in range(3):
            request = Message(address="service", reply_to=address, id=number, body=f"request {number}")
            event.sender.send(request)

    def on_message(self, event):
        self.accept(event.delivery)
        message = event.message
        if event.receiver == self.service:
            reply = Message(address=message.reply_to, correlation_id=message.id, body=f"reply to {message.body}")
            self.sender.send(reply)
            return
        self.said.append(f"{message.correlation_id}: {message.body}")
        if len(self.said) == len(self.wanted):
            self.end()


class Large(Try):
    """A message in many parts goes where its first part says."""

    wanted = ["3000000 octets", "accepted"]

    def begin(self, event):
        self.is_sent = False
        event.container.create_receiver(self.connection, "large").flow(1)
        self.sender = event.container.create_sender(self.connection, None, name="anonymous")

    def on_sendable(self, event):
        if not self.is_sent:
            self.is_sent = True
            event.sender.send(Message(address="large", body=b"l" * 3000000))

    def on_message(self, event):
        self.said.append(f"{len(event.message.body)} octets")
        self.accept(event.delivery)

    def on_settled(self, event):
        if event.link.is_sender:
            self.said.append(HEARD[event.delivery.remote_state])
            self.end()


class Waits(Try):
    """A sender gets credit without a consumer, and its message waits for a consumer's credit at the address that it names."""

    wanted = ["sent", "waited", "accepted"]

    def begin(self, event):
        self.is_sent = False
        self.receiver = event.container.create_receiver(self.connection, "later", name="later")
        self.sender = event.container.create_sender(self.connection, None, name="anonymous")

    def on_sendable(self, event):
        if not self.is_sent:
            self.is_sent = True
            event.sender.send(Message(address="later", body="waited"))
            self.said.append("sent")
            self.receiver.flow(1)

    def on_message(self, event):
        self.said.append(event.message.body)
        self.accept(event.delivery)

    def on_settled(self, event):
        if event.link.is_sender:
            self.said.append(HEARD[event.delivery.remote_state])
            self.end()


TRIES = [Addresses, Replies, Large, Waits]


def main():
    if sys.argv[1] == "--connections":
        print(len(TRIES))
        return 0
    wrong = 0
    for kind in TRIES:
        tried = kind(sys.argv[1])
        Container(tried).run()
        is_well = tried.said == tried.wanted
        wrong += not is_well
        print(f"{kind.__name__}: {'as it should' if is_well else f'said {tried.said}'}", flush=True)
    return 1 if wrong else 0


if __name__ == "__main__":
    sys.exit(main())
