#!/usr/bin/python3
"""Makes 200 hostile connections to the router, and behind them a lawful pair, whose message has to get through.

hostile.py HOST:PORT prints one line; its status is 1 where the lawful pair failed. hostile.py --connections prints how many
connections it makes. It needs Python alone, and does the same each time.
"""
import contextlib
import random
import socket
import struct
import sys

SECONDS = 30

# Performatives.
ATTACH, FLOW, TRANSFER, DISPOSITION, CLOSE = 0x12, 0x13, 0x14, 0x15, 0x18

NULL, TRUE, FALSE = b"\x40", b"\x41", b"\x42"
ACCEPTED = b"\x00\x53\x24\x45"
MANY = 2**32 - 1


def uint(number):
    if number == 0:
        return b"\x43"
    return bytes([0x52, number]) if number < 256 else b"\x70" + struct.pack(">I", number)


def string(text):
    return b"\xa1" + bytes([len(text)]) + text


def described(code, *items):
    body = b"".join(items)
    return b"\x00\x53" + bytes([code, 0xC0, len(body) + 1, len(items)]) + body


def frame(body, kind=0):
    return struct.pack(">IBBH", 8 + len(body), 2, kind, 0) + body


def attach(is_consumer, address):
    """Of a link with handle 0, by the name of its address."""
    end = described(0x28 if is_consumer else 0x29, string(address))
    source, target = (end, NULL) if is_consumer else (NULL, end)
    role, count = (TRUE, NULL) if is_consumer else (FALSE, uint(0))
    return frame(described(ATTACH, string(address), uint(0), role, NULL, NULL, source, target, NULL, NULL, count))


def flow(credit):
    return frame(described(FLOW, uint(0), uint(MANY), uint(0), uint(MANY), uint(0), uint(0), uint(credit)))


def transfer(number, payload):
    head = described(TRANSFER, uint(0), uint(number), b"\xa0\x04" + struct.pack(">I", number), uint(0), FALSE, FALSE)
    return frame(head + payload)


HEADER, SASL_HEADER = b"AMQP\x00\x01\x00\x00", b"AMQP\x03\x01\x00\x00"
INIT = frame(described(0x41, b"\xa3\x09ANONYMOUS"), kind=1)
OPEN = frame(described(0x10, string(b"h")))
BEGIN = frame(described(0x11, NULL, uint(0), uint(MANY), uint(MANY)))
CLOSING = frame(described(CLOSE))
STARTED = HEADER + OPEN + BEGIN
ECHO = frame(described(FLOW, uint(0), uint(MANY), uint(0), uint(MANY), NULL, NULL, NULL, NULL, FALSE, TRUE))

# What a lawful consumer might send without waiting for an answer.
CONVERSATION = SASL_HEADER + INIT + STARTED + attach(True, b"q") + flow(10) + CLOSING

OTHER_PROTOCOLS = [
    b"AMQP\x00\x00\x09\x01",
    b"AMQP\x02\x01\x00\x00",
    b"GET / HTTP/1.1\r\nHost: localhost\r\n\r\n",
    b"SSH-2.0-OpenSSH_9.2\r\n",
    bytes.fromhex("16030100c8010000c40303") + bytes(range(194)),
]


def garbage():
    chance = random.Random(1)
    noise = [chance.randbytes(length) for length in (8, 100, 5000)]
    return [
        *noise,
        *[HEADER + octets for octets in noise],
        *[STARTED + frame(octets) for octets in noise],
        SASL_HEADER + noise[1],
        STARTED + struct.pack(">I", MANY),
        STARTED + struct.pack(">IBBH", 7, 2, 0, 0),
        STARTED + struct.pack(">IBBH", 8, 1, 0, 0),
        STARTED + attach(True, b"q") * 2,
        STARTED + transfer(0, b"without a link"),
    ]


class Connection:
    """A connection with little room for what is not read."""

    def __init__(self, place):
        self.socket = socket.socket()
        self.socket.setsockopt(socket.SOL_SOCKET, socket.SO_RCVBUF, 2048)
        self.socket.settimeout(SECONDS)
        self.socket.connect(place)

    def send(self, octets):
        self.socket.sendall(octets)

    def close(self):
        self.socket.close()

    def reset(self):
        self.socket.setsockopt(socket.SOL_SOCKET, socket.SO_LINGER, struct.pack("ii", 1, 0))
        self.socket.close()

    def take(self, count):
        octets = b""
        while len(octets) < count:
            more = self.socket.recv(count - len(octets))
            if not more:
                raise ConnectionError("the router ended the connection")
            octets += more
        return octets

    def heard(self, code):
        """Reads frames up to the first with this performative, and answers that one."""
        while True:
            octets = self.take(4)
            octets += self.take(int.from_bytes(octets, "big") - 4)
            if octets[10] == code:
                return octets


HALVES = [b"", SASL_HEADER, HEADER + OPEN[:3], STARTED + BEGIN[:-1]]

# What a hostile client sends without reading, and what becomes of its connection then.
PLANS = [
    *[(octets, "stay") for octets in HALVES],
    *[(CONVERSATION[:length], "close") for length in range(len(CONVERSATION) + 1)],
    *[(octets, "close") for octets in OTHER_PROTOCOLS + garbage()],
    *[(STARTED + ECHO * 300, "close")] * 2,
    *[(CONVERSATION[:length], "reset") for length in range(0, len(CONVERSATION), 40)],
]
DEAF = [b"deaf a", b"deaf b", b"deaf c"]
HOSTILE = 2 * len(DEAF) + len(PLANS)


def fill(place, address):
    """Begins a consumer that gives credit without end and never reads, and a producer of 4 MB for it."""
    consumer = Connection(place)
    consumer.send(STARTED + attach(True, address) + flow(MANY))
    producer = Connection(place)
    producer.send(STARTED + attach(False, address))
    producer.take(len(HEADER))
    producer.heard(FLOW)
    for number in range(250):
        producer.send(transfer(number, bytes(16000)))
    # The answer tells that the router has taken all of them.
    producer.send(ECHO)
    producer.heard(FLOW)
    return [consumer, producer]


def be_hostile(place):
    """Makes the hostile connections, and answers those that stay."""
    staying = [connection for address in DEAF for connection in fill(place, address)]
    for octets, end in PLANS:
        connection = Connection(place)
        # The router may hang up meanwhile.
        with contextlib.suppress(ConnectionError):
            connection.send(octets)
        if end == "stay":
            staying.append(connection)
        elif end == "close":
            connection.close()
        else:
            connection.reset()
    return staying


def send_lawfully(place):
    """Sends a message from a producer to a consumer. Whether it arrived, and the producer was told that it was accepted."""
    message = b"\x00\x53\x77\xa1\x06lawful"
    consumer = Connection(place)
    consumer.send(STARTED + attach(True, b"lawful") + flow(1))
    consumer.take(len(HEADER))
    consumer.heard(ATTACH)
    producer = Connection(place)
    producer.send(STARTED + attach(False, b"lawful"))
    producer.take(len(HEADER))
    producer.heard(FLOW)
    producer.send(transfer(0, message))
    has_arrived = consumer.heard(TRANSFER).endswith(message)
    consumer.send(frame(described(DISPOSITION, TRUE, uint(0), uint(0), TRUE, ACCEPTED)))
    is_accepted = producer.heard(DISPOSITION).endswith(ACCEPTED)
    for connection in (consumer, producer):
        connection.send(CLOSING)
        connection.heard(CLOSE)
        connection.close()
    return has_arrived and is_accepted


def main():
    if sys.argv[1] == "--connections":
        print(HOSTILE + 2)
        return 0
    host, port = sys.argv[1].rsplit(":", 1)
    place = (host, int(port))
    try:
        staying = be_hostile(place)
        is_well = send_lawfully(place)
    except OSError as error:
        print(f"{HOSTILE} hostile connections, and a lawful pair: {error}")
        return 1
    for connection in staying:
        connection.close()
    print(f"{HOSTILE} hostile connections, and a lawful pair whose message {'got' if is_well else 'did not get'} through")
    return 0 if is_well else 1


if __name__ == "__main__":
    sys.exit(main())
