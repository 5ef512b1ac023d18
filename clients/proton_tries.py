#!/usr/bin/python3
"""Tries the router with Qpid Proton's Python client (Debian: python3-qpid-proton).

proton_tries.py HOST:PORT makes a connection for each try, and prints a line for it; its status is 1 where one did not end as
it should. The router has to be started with the rule multicast:news. proton_tries.py --connections prints how many
connections it makes.
"""
import sys

from proton import Delivery, Message
from proton.handlers import MessagingHandler
from proton.reactor import Container

HEARD = {
    Delivery.ACCEPTED: "accepted",
    Delivery.REJECTED: "rejected",
    Delivery.RELEASED: "released",
    Delivery.MODIFIED: "modified",
}


class Try(MessagingHandler):
    """A connection of its own, that gives up after some seconds."""

    options = {}

    def __init__(self, url, **words):
        super().__init__(**{"auto_accept": False, "prefetch": 0, **words})
        self.url, self.said = url, []

    def on_start(self, event):
        self.timer = event.reactor.schedule(20, self)
        self.connection = event.container.connect(self.url, reconnect=False, **self.options)
        self.begin(event)

    def on_timer_task(self, event):
        self.said.append("no end")
        self.end()

    def end(self):
        self.timer.cancel()
        self.connection.close()

    def on_transport_error(self, event):
        self.said.append(f"transport: {event.transport.condition}")
        self.timer.cancel()

    def on_connection_error(self, event):
        self.said.append(f"connection: {event.connection.remote_condition}")

    def on_link_error(self, event):
        self.said.append(f"link: {event.link.remote_condition.name}")


class Outcomes(Try):
    """Each outcome of a consumer is told to the producer."""

    wanted = ["accepted", "rejected", "released", "modified"]

    def begin(self, event):
        self.count, self.told = 0, {}
        self.receiver = event.container.create_receiver(self.connection, "outcomes")
        self.receiver.flow(10)
        self.sender = event.container.create_sender(self.connection, "outcomes")

    def on_sendable(self, event):
        while self.count < 4 and event.sender.credit:
            event.sender.send(Message(id=self.count, body=f"message {self.count}"))
            self.count += 1

    def on_message(self, event):
        delivery = event.delivery
        if event.message.id == 0:
            self.accept(delivery)
        elif event.message.id == 1:
            self.reject(delivery)
        elif event.message.id == 2:
            self.release(delivery, delivered=False)
        else:
            self.release(delivery, delivered=True)

    def on_delivery(self, event):
        delivery = event.delivery
        if event.link.is_sender and delivery.updated and delivery.remote_state:
            self.told[int(delivery.tag)] = HEARD[delivery.remote_state]
            delivery.settle()
            if len(self.told) == 4:
                self.said = [self.told[tag] for tag in sorted(self.told)]
                self.end()


class OneByOne(Try):
    """A consumer that gives one credit at a time gets one message at a time, in order."""

    wanted = [f"message {n}" for n in range(20)]

    def begin(self, event):
        self.count = 0
        self.receiver = event.container.create_receiver(self.connection, "one")
        self.receiver.flow(1)
        self.sender = event.container.create_sender(self.connection, "one")

    def on_sendable(self, event):
        while self.count < 20 and event.sender.credit:
            event.sender.send(Message(body=f"message {self.count}"))
            self.count += 1

    def on_message(self, event):
        self.said.append(event.message.body)
        self.accept(event.delivery)
        if event.link.queued > 1:
            self.said.append("more than one")
        if len(self.said) < 20:
            event.receiver.flow(1)
        else:
            self.end()


class Drains(Try):
    """A drain gets back the credit for which there is no message."""

    wanted = ["gave back 5", "a", "b", "gave back 3"]

    def begin(self, event):
        self.receiver = event.container.create_receiver(self.connection, "drain")
        self.receiver.drain(5)
        self.sender = None

    def on_link_flow(self, event):
        if not event.link.is_receiver or event.link.credit:
            return
        given_back = event.link.drained()
        if given_back:
            self.said.append(f"gave back {given_back}")
        if given_back and self.sender:
            self.end()
        elif given_back:
            self.sender = event.container.create_sender(self.connection, "drain")
            self.count = 0

    def on_sendable(self, event):
        while self.count < 2:
            event.sender.send(Message(body="ab"[self.count]))
            self.count += 1
            if self.count == 2:
                self.timer_of_drain = event.reactor.schedule(0.3, Later(self.receiver))

    def on_message(self, event):
        self.said.append(event.message.body)
        self.accept(event.delivery)


class Later:
    """Drains a link once its messages wait."""

    def __init__(self, receiver):
        self.receiver = receiver

    def on_timer_task(self, event):
        self.receiver.drain(5)


class Large(Try):
    """A message of many frames arrives unaltered."""

    size = 3_000_000
    wanted = ["3000000 the same"]

    def begin(self, event):
        self.body = bytes(n * 7 % 251 for n in range(self.size))
        self.receiver = event.container.create_receiver(self.connection, "large")
        self.receiver.flow(1)
        self.sender = event.container.create_sender(self.connection, "large")
        self.is_sent = False

    def on_sendable(self, event):
        if not self.is_sent:
            self.is_sent = True
            event.sender.send(Message(body=self.body))

    def on_message(self, event):
        same = bytes(event.message.body) == self.body
        self.said.append(f"{len(event.message.body)} {'the same' if same else 'another'}")
        self.accept(event.delivery)

    def on_settled(self, event):
        if event.link.is_sender:
            self.end()


class Multicast(Try):
    """Each consumer of a multicast address gets a copy and accepts it, and the producer is told so once."""

    wanted = ["copy", "copy", "copy", "told accepted"]

    def begin(self, event):
        self.is_sent = False
        for name in ("a", "b", "c"):
            event.container.create_receiver(self.connection, "news", name=name).flow(5)
        self.sender = event.container.create_sender(self.connection, "news", name="p")

    def on_sendable(self, event):
        if not self.is_sent:
            self.is_sent = True
            event.sender.send(Message(body="extra"))

    def on_message(self, event):
        self.said.append("copy")
        self.accept(event.delivery)
        self.look()

    def on_accepted(self, event):
        self.said.append("told accepted")
        self.look()

    def look(self):
        if len(self.said) == 4:
            self.said.sort()
            self.end()


class Replies(Try):
    """A request goes to a service, and its reply to an address that the router made up."""

    wanted = ["reply to request"]

    def begin(self, event):
        self.replies = event.container.create_receiver(self.connection, None, dynamic=True, name="replies")
        self.replies.flow(1)
        self.service = event.container.create_receiver(self.connection, "service", name="service")
        self.service.flow(1)
        self.requests = event.container.create_sender(self.connection, "service", name="requests")
        self.answers = None
        self.is_sent = False

    def on_sendable(self, event):
        address = self.replies.remote_source.address
        if event.sender == self.requests and not self.is_sent and address:
            self.is_sent = True
            event.sender.send(Message(body="request", reply_to=address))
        elif event.sender == self.answers and self.reply:
            event.sender.send(Message(body=self.reply))
            self.reply = None

    def on_message(self, event):
        self.accept(event.delivery)
        if event.receiver == self.service:
            self.reply = f"reply to {event.message.body}"
            self.answers = event.container.create_sender(self.connection, event.message.reply_to, name="answers")
        else:
            self.said.append(event.message.body)
            self.end()


class ComeAndGo(Try):
    """Links are opened and closed over and over on one session."""

    wanted = ["300 opened and closed"]

    def begin(self, event):
        self.count = 0
        self.open(event)

    def open(self, event):
        if self.count % 2:
            event.container.create_receiver(self.connection, "comes", name=f"link {self.count}")
        else:
            event.container.create_sender(self.connection, "comes", name=f"link {self.count}")

    def on_link_opened(self, event):
        event.link.close()

    def on_link_closed(self, event):
        self.count += 1
        if self.count < 300:
            self.open(event)
        else:
            self.said.append("300 opened and closed")
            self.end()


class Nameless(Try):
    """A producer without an address is refused, and the connection goes on."""

    wanted = ["link: amqp:not-implemented", "closed"]

    def begin(self, event):
        self.sender = event.container.create_sender(self.connection, None)

    def on_link_closed(self, event):
        self.said.append("closed")
        self.end()

    def on_link_error(self, event):
        super().on_link_error(event)
        self.said.append("closed")
        self.end()


class Bare(OneByOne):
    """The same as one by one, without SASL."""

    options = {"sasl_enabled": False}


class Idle(Try):
    """A connection that asks for signs of life each half second stays through ten of them in which nothing is said."""

    options = {"heartbeat": 0.5}
    wanted = ["still there", "a"]

    def begin(self, event):
        self.receiver = event.container.create_receiver(self.connection, "idle")
        self.receiver.flow(1)
        event.reactor.schedule(5, Then(self.speak))

    def speak(self, event):
        self.said.append("still there")
        self.sender = event.container.create_sender(self.connection, "idle")

    def on_sendable(self, event):
        if event.sender.credit and len(self.said) == 1:
            event.sender.send(Message(body="a"))

    def on_message(self, event):
        self.said.append(event.message.body)
        self.accept(event.delivery)
        self.end()


class Then:
    """Goes on after some seconds."""

    def __init__(self, go_on):
        self.go_on = go_on

    def on_timer_task(self, event):
        self.go_on(event)


TRIES = [Outcomes, OneByOne, Drains, Large, Multicast, Replies, ComeAndGo, Nameless, Bare, Idle]


def main():
    if sys.argv[1] == "--connections":
        print(len(TRIES))
        return 0
    url = sys.argv[1]
    wrong = 0
    for kind in TRIES:
        tried = kind(url)
        Container(tried).run()
        is_well = tried.said == kind.wanted
        wrong += not is_well
        print(f"{kind.__name__}: {'as it should' if is_well else f'said {tried.said[:8]}, not {kind.wanted[:8]}'}", flush=True)
    return 1 if wrong else 0


if __name__ == "__main__":
    sys.exit(main())
