#!/usr/bin/python3
"""Mixed clients for some minutes, and what the router's memory does meanwhile.

    clients/soak.py [ROUTER [SECONDS [WITHOUT..]]]   ROUTER is the program, without it bin/amqp_routerd, which ./build makes; SECONDS is
                                                     600; WITHOUT are names of kinds of clients that do not come

The kinds, each on a thread of its own: `steady`, a pair that stays; `passing`, pairs that come, exchange some messages and go;
`refusing`, a consumer that accepts, rejects, releases and modifies by turns; `leaving`, consumers that detach, or are gone, while
deliveries are under way; `draining`, a consumer that drains its credit where nothing waits; `news`, a producer of a multicast address
and its two consumers. It prints the router's resident memory ten times, what each kind did, and what amqp_audit says of the capture,
which follows it as it grows. Status 1 where a client got something else than it should, the capture is refused, or the memory at the
end is more than 2 MB above that at the first tenth. It needs Python alone.
"""
import pathlib
import random
import socket
import subprocess
import sys
import tempfile
import threading
import time

# What is imported leaves nothing beside it.
sys.dont_write_bytecode = True

from floods import uint_at
from hostile import ACCEPTED, ATTACH, CLOSE, CLOSING, DISPOSITION, FLOW, HEADER, MANY, NULL, STARTED, TRANSFER, TRUE
from hostile import attach, described, flow, frame, transfer, uint

HERE = pathlib.Path(__file__).resolve().parent
WAIT = 30
DETACH = 0x16
STATES = {"accepted": ACCEPTED, "rejected": b"\x00\x53\x25\x45", "released": b"\x00\x53\x26\x45", "modified": b"\x00\x53\x27\x45"}
STATE_OF = {octets[2]: name for name, octets in STATES.items()}
DETACHES = frame(described(DETACH, uint(0), TRUE))
MOST_GROWTH = 2_000


def drain(count):
    """Credit for 20 deliveries behind so many, all of which is to be used up."""
    return frame(described(FLOW, uint(0), uint(MANY), uint(0), uint(MANY), uint(0), uint(count), uint(20), NULL, TRUE))


class Peer:
    """A producer or a consumer, with one link, on a connection of its own."""

    def __init__(self, place, address, credit=None):
        self.socket = socket.create_connection(place, WAIT)
        self.socket.setsockopt(socket.IPPROTO_TCP, socket.TCP_NODELAY, 1)
        self.octets, self.count = b"", 0
        is_consumer = credit is not None
        self.send(STARTED + attach(is_consumer, address) + (flow(credit) if is_consumer else b""))
        while len(self.octets) < len(HEADER):
            self.take()
        self.octets = self.octets[len(HEADER) :]
        self.heard(ATTACH)

    def send(self, octets):
        self.socket.sendall(octets)

    def take(self):
        more = self.socket.recv(1 << 16)
        assert more, "the router ended the connection"
        self.octets += more

    def heard(self, *codes):
        """The next frame that has one of these performatives."""
        while True:
            while len(self.octets) < 4 or len(self.octets) < int.from_bytes(self.octets[:4], "big"):
                self.take()
            size = int.from_bytes(self.octets[:4], "big")
            one, self.octets = self.octets[:size], self.octets[size:]
            if size > 8 and one[10] in codes:
                return one

    def produce(self, count):
        """Sends so many messages, once there is credit for them, and answers the outcomes that it was told."""
        told = []
        for _ in range(count):
            self.send(transfer(self.count, b"\x00\x53\x77\xa1\x06%06d" % (self.count % 1_000_000)))
            self.count += 1
        while len(told) < count:
            octets = self.heard(DISPOSITION)
            first, place = uint_at(octets, 15)
            last = first if octets[place] in (0x40, 0x41) else uint_at(octets, place)[0]
            told += [STATE_OF.get(octets[octets.rfind(b"\x00\x53") + 2], "other")] * (last - first + 1)
        return told

    def decide(self, state):
        """Takes one delivery, and decides and settles it."""
        self.heard(TRANSFER)
        self.send(frame(described(DISPOSITION, TRUE, uint(self.count), uint(self.count), TRUE, STATES[state])))
        self.count += 1

    def close(self):
        self.send(CLOSING)
        self.heard(CLOSE)
        self.socket.close()


def exchange(consumer, producer, states):
    """A message for each of these states, which the producer is to be told; what a consumer gives back nobody else gets."""
    told = []
    thread = threading.Thread(target=lambda: told.extend(producer.produce(len(states))))
    thread.start()
    for state in states:
        consumer.decide(state)
    thread.join(WAIT)
    assert sorted(told) == sorted(states), f"told {told} of {states}"
    return len(states)


def pair(place, address):
    consumer = Peer(place, address, MANY)
    producer = Peer(place, address)
    producer.heard(FLOW)
    return consumer, producer


def steady(place, chance, goes_on):
    consumer, producer = pair(place, b"steady")
    count = 0
    while goes_on():
        count += exchange(consumer, producer, ["accepted"] * chance.randrange(1, 100))
    consumer.close()
    producer.close()
    return count


def passing(place, chance, goes_on):
    count = 0
    while goes_on():
        consumer, producer = pair(place, b"passing")
        count += exchange(consumer, producer, ["accepted"] * chance.randrange(1, 20))
        for one in chance.sample((consumer, producer), 2):
            one.close()
    return count


def refusing(place, chance, goes_on):
    consumer, producer = pair(place, b"refusing")
    count = 0
    while goes_on():
        count += exchange(consumer, producer, chance.choices(list(STATES), k=chance.randrange(1, 50)))
    consumer.close()
    producer.close()
    return count


def leaving(place, chance, goes_on):
    """Of what it did not decide the producer is told modified where it had it, and released where it did not."""
    count = 0
    while goes_on():
        consumer, producer = pair(place, b"leaving")
        told, sent = [], chance.randrange(2, 20)
        thread = threading.Thread(target=lambda one=producer: told.extend(one.produce(sent)))
        thread.start()
        for _ in range(chance.randrange(sent)):
            consumer.decide("accepted")
        if chance.random() < 0.5:
            consumer.send(DETACHES)
            consumer.heard(DETACH)
        else:
            consumer.socket.close()
        thread.join(WAIT)
        assert len(told) == sent and set(told) <= {"accepted", "modified", "released"}, f"told {told}"
        count += sent
        producer.close()
    return count


def draining(place, chance, goes_on):
    consumer = Peer(place, b"draining", 0)
    count = 0
    while goes_on():
        consumer.send(drain(20 * count))
        consumer.heard(FLOW)
        count += 1
        time.sleep(chance.uniform(0, 0.02))
    consumer.close()
    return count


def news(place, chance, goes_on):
    consumers = [Peer(place, b"news", MANY) for _ in range(2)]
    producer = Peer(place, b"news")
    producer.heard(FLOW)
    count = 0
    while goes_on():
        told, sent = [], chance.randrange(1, 10)
        thread = threading.Thread(target=lambda: told.extend(producer.produce(sent)))
        thread.start()
        for _ in range(sent):
            for one in consumers:
                one.decide("accepted")
        thread.join(WAIT)
        assert told == ["accepted"] * sent, f"told {told}"
        count += sent
        time.sleep(chance.uniform(0, 0.05))
    for one in (*consumers, producer):
        one.close()
    return count


KINDS = {it.__name__: it for it in (steady, passing, refusing, leaving, draining, news)}


def resident(pid):
    with open(f"/proc/{pid}/status") as it:
        return next(int(line.split()[1]) for line in it if line.startswith("VmRSS"))


class Kind(threading.Thread):
    def __init__(self, name, place, ends):
        super().__init__()
        self.name, self.place, self.ends, self.count, self.wrong = name, place, ends, 0, None

    def run(self):
        try:
            self.count = KINDS[self.name](self.place, random.Random(self.name), lambda: time.monotonic() < self.ends)
        except (AssertionError, OSError) as it:
            self.wrong = it


def soak(router, seconds, names, folder):
    """Whether all was well."""
    capture = folder / "soak.cap"
    words = [router, "--listen", "127.0.0.1:0", "--capture", capture, "--rule", "multicast:news"]
    running = subprocess.Popen(words, stdin=subprocess.PIPE, stdout=subprocess.PIPE, stderr=subprocess.PIPE, text=True)
    place = running.stderr.readline().rsplit(" ", 1)[1].strip().split(":")
    auditor = subprocess.Popen([router.parent / "amqp_audit", "--follow", "--idle", "5", capture], stdout=subprocess.PIPE, text=True)
    ends = time.monotonic() + seconds
    kinds = [Kind(name, (place[0], int(place[1])), ends) for name in names]
    for kind in kinds:
        kind.start()
    memory = []
    for _ in range(10):
        time.sleep(seconds / 10)
        memory.append(resident(running.pid))
        print(f"{memory[-1]} KB resident, {capture.stat().st_size} octets of the capture", flush=True)
    for kind in kinds:
        kind.join(2 * WAIT)
        print(f"{kind.name}: {kind.count}" + (f"; WRONG: {kind.wrong}" if kind.wrong else ""))
    said, _ = running.communicate("quit\n", timeout=WAIT)
    verdict, _ = auditor.communicate(timeout=600)
    print(f"router: {said.strip()}\namqp_audit, as it grew: {verdict.strip()}")
    growth = memory[-1] - memory[0]
    print(f"soak: {seconds} seconds, memory grew by {growth} KB from the first tenth on")
    return not any(kind.wrong for kind in kinds) and verdict.startswith("accepted ") and growth <= MOST_GROWTH


def main():
    router = pathlib.Path(sys.argv[1]) if len(sys.argv) > 1 else HERE.parent / "bin" / "amqp_routerd"
    seconds = int(sys.argv[2]) if len(sys.argv) > 2 else 600
    names = [name for name in KINDS if name not in sys.argv[3:]]
    with tempfile.TemporaryDirectory() as folder:
        return 0 if soak(router, seconds, names, pathlib.Path(folder)) else 1


if __name__ == "__main__":
    sys.exit(main())
