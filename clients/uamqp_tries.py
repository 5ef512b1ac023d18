#!/usr/bin/python3
"""Tries the router with uAMQP, the AMQP client of Azure's libraries (Debian: python3-uamqp, openssl).

uamqp_tries.py HOST:PORT prints a line for each try; its status is 1 where one did not end as it should. The router has to be
started with the rule multicast:news. uamqp_tries.py --connections prints how many connections it makes.

uAMQP speaks TLS alone, and the router does not. So this program puts a bridge before the router: it takes the TLS off a
connection, and passes what the connection carries on to the router, and back.
"""
import asyncio
import contextlib
import logging
import ssl
import subprocess
import sys
import tempfile
import threading
import time

import uamqp
from uamqp.address import Source, Target
from uamqp.authentication import SASLAnonymous, SASLPlain
from uamqp.constants import MessageSendResult, SenderSettleMode
from uamqp.message import MessageHeader, MessageProperties

SECONDS = 60


class Bridge:
    """Takes TLS connections for localhost on a port of its own, with a certificate made for that."""

    def __init__(self, folder, host, port):
        self.host, self.port, self.lines = host, port, 0
        self.certificate, key = f"{folder}/certificate", f"{folder}/key"
        words = "req -x509 -newkey ec -pkeyopt ec_paramgen_curve:prime256v1 -nodes -days 2 -subj /CN=localhost"
        made = [*words.split(), "-addext", "subjectAltName=DNS:localhost", "-keyout", key, "-out", self.certificate]
        subprocess.run(["openssl", *made], check=True, capture_output=True)
        self.tls = ssl.SSLContext(ssl.PROTOCOL_TLS_SERVER)
        self.tls.load_cert_chain(self.certificate, key)
        is_open = threading.Event()
        threading.Thread(target=asyncio.run, args=(self.serve(is_open),), daemon=True).start()
        is_open.wait()

    def words(self):
        """Where to connect, as the library's kinds of authentication take it."""
        return {"hostname": "localhost", "port": self.own_port, "verify": self.certificate}

    async def serve(self, is_open):
        server = await asyncio.start_server(self.join, "127.0.0.1", 0, ssl=self.tls)
        self.own_port = server.sockets[0].getsockname()[1]
        is_open.set()
        await server.serve_forever()

    async def join(self, client_in, client_out):
        self.lines += 1
        # Where the router takes no connection, the client's ends.
        with contextlib.suppress(ConnectionError):
            router_in, router_out = await asyncio.open_connection(self.host, self.port)
            await asyncio.gather(pass_on(client_in, router_out), pass_on(router_in, client_out))
        client_out.close()
        self.lines -= 1


async def pass_on(source, sink):
    """Passes octets on until `source` ends, and then ends `sink`."""
    with contextlib.suppress(ConnectionError, ssl.SSLError):
        while octets := await source.read(65536):
            sink.write(octets)
            await sink.drain()
    sink.close()


class Line:
    """A connection with one session and its links, which gives up after some seconds."""

    def __init__(self, bridge, auth=None, **words):
        self.bridge, self.end = bridge, time.monotonic() + SECONDS
        self.connection = uamqp.Connection("localhost", auth or SASLAnonymous(**bridge.words()), **words)
        self.session = uamqp.Session(self.connection, incoming_window=100, outgoing_window=100)
        self.links, self.prefetching, self.sent, self.told = [], [], [], {}

    def __enter__(self):
        return self

    def __exit__(self, *fault):
        for link in reversed(self.links):
            link.destroy()
        self.session.destroy()
        self.connection.destroy()
        while self.bridge.lines and time.monotonic() < self.end:
            time.sleep(0.001)

    def receiver(self, address, on_message, prefetch, **words):
        link = uamqp.MessageReceiver(self.session, Source(address), "here", on_message, prefetch=prefetch, **words)
        self.opened(link)
        if prefetch:
            self.prefetching.append(link)
        return link

    def sender(self, address, **words):
        return self.opened(uamqp.MessageSender(self.session, "here", Target(address), **words))

    def opened(self, link):
        self.links.append(link)
        link.open()
        self.until(lambda: link.get_state().name == "Open")
        return link

    def leave(self, receiver):
        self.links.remove(receiver)
        self.prefetching.remove(receiver)
        receiver.destroy()

    def send(self, sender, body, **parts):
        """Sends a message, and keeps in `told` what the producer is told of it."""
        place = len(self.sent)

        def on_told(_message, result, delivery_state=None):
            is_accepted = result == MessageSendResult.Ok.value
            self.told[place] = "accepted" if is_accepted else f"not accepted: {delivery_state}"

        # The library holds no message for itself.
        self.sent.append(uamqp.Message(body, **parts))
        sender.send(self.sent[place], on_told)

    def all_told(self):
        self.until(lambda: len(self.told) == len(self.sent))
        return [self.told[place] for place in range(len(self.sent))]

    def until(self, is_done):
        while not is_done():
            if time.monotonic() > self.end:
                raise TimeoutError
            self.connection.work()
            # This gives credit again where all was used.
            for link in self.prefetching:
                link.work()
            time.sleep(0.001)


def body_of(message):
    return b"".join(message.get_data())


def outcomes(bridge):
    """Each outcome of a consumer is told to the producer, with what it says besides."""
    decisions = {
        b"0": lambda message: message.accept(),
        b"1": lambda message: message.reject(condition="tries:no", description="not wanted"),
        b"2": lambda message: message.release(),
        b"3": lambda message: message.modify(True, False),
    }
    with Line(bridge) as line:
        line.receiver("outcomes", lambda message: decisions[body_of(message)](message), prefetch=2)
        sender = line.sender("outcomes")
        for body in sorted(decisions):
            line.send(sender, body)
        return line.all_told()


def one_by_one(bridge):
    """A consumer that gives one credit at a time gets one message at a time, in order."""
    held, said = [], []
    with Line(bridge) as line:
        receiver = line.receiver("one", held.append, prefetch=0)
        sender = line.sender("one")
        for number in range(20):
            line.send(sender, b"%d" % number)
        while len(said) < 20:
            receiver.reset_link_credit(1)
            line.until(lambda: held)
            said.append(b" ".join(body_of(message) for message in held))
            held.pop().accept()
        line.all_told()
    return said


def prefetched(bridge):
    """A consumer that gives credit for 20 messages again and again gets 300, in order."""
    said = []

    def on_message(message):
        said.append(int(body_of(message)))
        message.accept()

    with Line(bridge) as line:
        line.receiver("prefetched", on_message, prefetch=20)
        sender = line.sender("prefetched")
        for number in range(300):
            line.send(sender, b"%d" % number)
        is_told = line.all_told() == ["accepted"] * 300
    return [said == list(range(300)), is_told]


def large(bridge):
    """A message of many frames arrives unaltered."""
    body = bytes(n * 7 % 251 for n in range(3_000_000))
    said = []

    def on_message(message):
        said.append("the same" if body_of(message) == body else "another")
        message.accept()

    words = {"max_message_size": 4_000_000}
    with Line(bridge) as line:
        line.receiver("large", on_message, prefetch=1, **words)
        line.send(line.sender("large", **words), body)
        return line.all_told() + said


def sections(bridge):
    """What stands beside the body arrives, too."""
    said = []

    def on_message(message):
        properties = message.properties
        said.extend([properties.message_id, properties.subject, properties.correlation_id])
        said.extend([message.application_properties, message.annotations, message.header.priority])
        message.accept()

    parts = {
        "properties": MessageProperties(message_id=b"an id", subject=b"a subject", correlation_id=b"another id"),
        "application_properties": {b"flag": True, b"number": 70000},
        "annotations": {b"x-opt-try": b"annotated"},
        "header": MessageHeader(),
    }
    parts["header"].priority = 7
    with Line(bridge) as line:
        line.receiver("sections", on_message, prefetch=1)
        line.send(line.sender("sections"), b"body", **parts)
        return line.all_told() + said


def multicast(bridge):
    """Each of two consumers gets a copy and accepts it, and the producer is told that the message was accepted."""
    said = []

    def accepting(name):
        def on_message(message):
            said.append(name + b" got " + body_of(message))
            message.accept()

        return on_message

    with Line(bridge) as line:
        line.receiver("news", accepting(b"a"), prefetch=5)
        line.receiver("news", accepting(b"b"), prefetch=5)
        line.send(line.sender("news"), b"extra")
        line.until(lambda: len(said) == 2)
        return sorted(said) + line.all_told()


def settled_by_sender(bridge):
    """What a producer sends settled arrives, and nobody waits for an outcome."""
    said = []

    def on_message(message):
        said.append(body_of(message))
        message.accept()

    with Line(bridge) as line:
        line.receiver("settled", on_message, prefetch=5)
        line.send(line.sender("settled", send_settle_mode=SenderSettleMode.Settled), b"body")
        line.until(lambda: said)
        return said + line.all_told()


def settled_to_receiver(bridge):
    """Where a consumer asks for settled messages, the producer is told accepted as soon as they are sent."""
    said = []
    with Line(bridge) as line:
        words = {"prefetch": 5, "send_settle_mode": SenderSettleMode.Settled}
        line.receiver("at once", lambda message: said.append(body_of(message)), **words)
        line.send(line.sender("at once"), b"body")
        line.until(lambda: said)
        return said + line.all_told()


def gone(bridge):
    """A message to an address whose only consumer is gone is released."""
    with Line(bridge) as line:
        receiver = line.receiver("gone", print, prefetch=5)
        sender = line.sender("gone")
        line.leave(receiver)
        line.send(sender, b"body")
        return line.all_told()


def refused(bridge):
    """A link to an address that is too long is refused, with the reason."""
    with Line(bridge) as line:
        try:
            line.sender("a" * 161)
        except uamqp.errors.LinkDetach as error:
            return [error.condition.name]


def idle(bridge):
    """A connection that asks for signs of life each half second stays through ten of them in which nothing is said."""
    said = []
    with Line(bridge, idle_timeout=500) as line:
        words = {"prefetch": 5, "send_settle_mode": SenderSettleMode.Settled}
        line.receiver("idle", lambda message: said.append(body_of(message)), **words)
        rest = time.monotonic() + 5
        line.until(lambda: time.monotonic() > rest)
        line.send(line.sender("idle"), b"body")
        line.until(lambda: said)
        return said + line.all_told()


def with_password(bridge):
    """A client that wants SASL PLAIN ends the connection, since the router offers ANONYMOUS alone."""
    with Line(bridge, SASLPlain(username="user", password="word", **bridge.words())) as line:
        try:
            line.sender("plain")
        except uamqp.errors.ConnectionClose:
            return ["no connection"]


def clients(bridge):
    """The library's own clients, each on its connection, with their queue and batches."""
    url = "amqps://localhost/clients"
    bodies = [b"message %d" % number for number in range(50)]
    messages = [uamqp.Message(body) for body in bodies]
    end = time.monotonic() + SECONDS
    received = []
    with uamqp.ReceiveClient(url, auth=SASLAnonymous(**bridge.words()), prefetch=10) as receiver:
        with uamqp.SendClient(url, auth=SASLAnonymous(**bridge.words())) as sender:
            sender.queue_message(*messages)
            while len(received) < 50 or sender.messages_pending():
                if time.monotonic() > end:
                    raise TimeoutError
                sender.do_work()
                received += receiver.receive_message_batch(timeout=5)
    while bridge.lines and time.monotonic() < end:
        time.sleep(0.001)
    return [[body_of(message) for message in received] == bodies, {message.state.name for message in messages}]


# Each try, with how many connections it makes and what it should say.
TRIES = [
    (outcomes, 1, [
        "accepted",
        "not accepted: [[b'tries:no', b'not wanted']]",
        "not accepted: []",
        "not accepted: [True, False]",
    ]),
    (one_by_one, 1, [b"%d" % number for number in range(20)]),
    (prefetched, 1, [True, True]),
    (large, 1, ["accepted", "the same"]),
    (sections, 1, [
        "accepted", b"an id", b"a subject", b"another id",
        {b"flag": True, b"number": 70000}, {b"x-opt-try": b"annotated"}, 7,
    ]),
    (multicast, 1, [b"a got extra", b"b got extra", "accepted"]),
    (settled_by_sender, 1, [b"body", "accepted"]),
    (settled_to_receiver, 1, [b"body", "accepted"]),
    (gone, 1, ["not accepted: []"]),
    (refused, 1, ["ResourceLimitExceeded"]),
    (idle, 1, [b"body", "accepted"]),
    (with_password, 1, ["no connection"]),
    (clients, 2, [True, {"SendComplete"}]),
]


def said_by(attempt, bridge):
    try:
        return attempt(bridge)
    except TimeoutError:
        return "no end"
    except uamqp.errors.AMQPError as error:
        return repr(error)


def main():
    if sys.argv[1] == "--connections":
        print(sum(connections for _, connections, _ in TRIES))
        return 0
    host, port = sys.argv[1].rsplit(":", 1)
    # The library writes a warning of each refusal, also of those that are wanted.
    logging.getLogger("uamqp").setLevel(logging.CRITICAL)
    wrong = 0
    with tempfile.TemporaryDirectory() as folder:
        bridge = Bridge(folder, host, int(port))
        for attempt, _, wanted in TRIES:
            said = said_by(attempt, bridge)
            wrong += said != wanted
            print(f"{attempt.__name__}: {'as it should' if said == wanted else f'said {said}, not {wanted}'}", flush=True)
    return 1 if wrong else 0


if __name__ == "__main__":
    sys.exit(main())
