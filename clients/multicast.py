#!/usr/bin/python3
"""Tries what a producer of a multicast address is told, with Qpid Proton's Python client (Debian: python3-qpid-proton).

multicast.py HOST:PORT makes a connection for each try, and prints a line for it; its status is 1 where one did not end as it
should. The router has to be started with the rule multicast:news. multicast.py --connections prints how many connections it
makes.

In a try each of some consumers gets a copy of one message. Then they do one after the other what the try's name says, with time
between that would show an outcome that is told too early. The producer has to be told once, behind the last of them, and the best
of what they said: accepted, else modified, else rejected, else released. Who leaves undecided counts as modified, and who asks for
settled copies as accepted.
"""
import sys

from proton import Delivery, Message
from proton.handlers import MessagingHandler
from proton.reactor import AtMostOnce, Container
from proton_tries import HEARD, Try

SAYS = {
    "accepts": Delivery.ACCEPTED,
    "modifies": Delivery.MODIFIED,
    "rejects": Delivery.REJECTED,
    "releases": Delivery.RELEASED,
}

# What the consumers do, and what the producer is told.
TRIES = [
    (["modifies", "accepts"], "accepted"),
    (["leaves", "accepts"], "accepted"),
    (["rejects", "accepts"], "accepted"),
    (["accepts", "releases"], "accepted"),
    (["rejects", "modifies"], "modified"),
    (["leaves", "rejects"], "modified"),
    (["releases", "leaves"], "modified"),
    (["releases", "rejects"], "rejected"),
    (["releases", "releases"], "released"),
    (["leaves"], "modified"),
    (["accepts", "rejects", "releases", "leaves"], "accepted"),
    (["releases", "rejects", "leaves"], "modified"),
    (["takes it settled", "rejects"], "accepted"),
    (["rejects unsettled", "releases unsettled", "modifies"], "modified"),
]


class Later(MessagingHandler):
    """Does something after a while."""

    def __init__(self, deed):
        super().__init__()
        self.deed = deed

    def on_timer_task(self, event):
        self.deed()


class Told(Try):
    """What consumers say of their copies, and what the producer is told behind it."""

    def __init__(self, url, deeds):
        super().__init__(url)
        self.deeds, self.copies, self.left = deeds, {}, []
        self.is_sent = False

    def begin(self, event):
        for number, deed in enumerate(self.deeds):
            options = AtMostOnce() if deed == "takes it settled" else None
            event.container.create_receiver(self.connection, "news", name=str(number), options=options).flow(1)
        self.sender = event.container.create_sender(self.connection, "news", name="p")

    def on_sendable(self, event):
        if not self.is_sent:
            self.is_sent = True
            event.sender.send(Message(body="extra"))

    def on_message(self, event):
        self.copies[int(event.receiver.name)] = event
        if len(self.copies) == len(self.deeds):
            self.left = list(range(len(self.deeds)))
            self.say_next()

    def say_next(self):
        number = self.left.pop(0)
        deed = self.deeds[number]
        self.said.append(deed)
        verb, *unsettled = deed.split()
        if verb in SAYS:
            delivery = self.copies[number].delivery
            delivery.update(SAYS[verb])
            if not unsettled:
                delivery.settle()
        elif verb == "leaves":
            self.copies[number].receiver.close()
        if self.left:
            self.copies[number].reactor.schedule(0.2, Later(self.say_next))

    def on_settled(self, event):
        if event.link.is_sender:
            self.said.append(f"told {HEARD[event.delivery.remote_state]}")
            # Behind it come the settlings, and what would be one outcome too many.
            event.reactor.schedule(0.2, Later(self.end))
        else:
            self.said.append("settled")
            event.delivery.settle()


def wanted(deeds, outcome):
    """What is to be said: what the consumers do, the outcome, and what the router settles then."""
    return deeds + [f"told {outcome}"] + ["settled" for deed in deeds if deed.endswith("unsettled")]


def main():
    if sys.argv[1] == "--connections":
        print(len(TRIES))
        return 0
    wrong = 0
    for deeds, outcome in TRIES:
        tried = Told(sys.argv[1], deeds)
        Container(tried).run()
        is_well = tried.said == wanted(deeds, outcome)
        wrong += not is_well
        print(f"{', '.join(deeds)}: {'as it should' if is_well else f'said {tried.said}'}", flush=True)
    return 1 if wrong else 0


if __name__ == "__main__":
    sys.exit(main())
