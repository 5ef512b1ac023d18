#!/usr/bin/python3
"""Kills routers under load, and looks at what they leave: nothing that a client saw may be lost.

    clients/killed.py [ROUTER [TIMES]]    ROUTER is the program, without it bin/amqp_routerd, which ./build makes; TIMES is 10

Each time a router serves some producers and consumers, and is killed (SIGKILL) at a moment by chance. Then the capture that it wrote
has to be whole to a record's end, behind which there may be the beginning of one more: amqp_audit accepts it, or says that it is
malformed just where that one begins. And what each client received has to begin what the capture tells that was written to it.
It prints a line for each time; status 1 where one is wrong. It needs Python alone.
"""
import contextlib
import os
import pathlib
import random
import select
import socket
import subprocess
import sys
import tempfile
import threading

# What is imported leaves nothing beside it.
sys.dont_write_bytecode = True

from floods import outcome, uint_at
from hostile import ACCEPTED, ATTACH, DISPOSITION, FLOW, HEADER, MANY, STARTED, TRANSFER, attach, flow, transfer

HERE = pathlib.Path(__file__).resolve().parent
SECONDS = 30
PAIRS = 3

# So many messages of a producer are under way at most.
UNDER_WAY = 100

# A capture of no rules: the letters of its form, its mark and their number. Then records: kind, connection, note with index, length.
HEAD = 11
RECORD = 18
OUT = 2


class Client:
    """A producer or a consumer, and all that it received."""

    def __init__(self, place, number, is_consumer):
        self.is_consumer, self.received, self.read = is_consumer, bytearray(), len(HEADER)
        self.sent, self.credit, self.told = 0, 0, 0
        self.socket = socket.create_connection(place, SECONDS)
        self.socket.setsockopt(socket.IPPROTO_TCP, socket.TCP_NODELAY, 1)
        self.socket.sendall(STARTED + attach(is_consumer, b"k%d" % number) + (flow(MANY) if is_consumer else b""))
        # The next one is to come behind it, so that it has the next number.
        while len(self.received) < len(HEADER):
            self.take()

    def take(self):
        """Takes what has come. Says whether anything did."""
        try:
            more = self.socket.recv(1 << 16)
        except OSError:
            return False
        self.received += more
        return more != b""

    def frames(self):
        """The frames that are whole since the last time."""
        while len(self.received) - self.read >= 4:
            size = int.from_bytes(self.received[self.read : self.read + 4], "big")
            if len(self.received) - self.read < size:
                return
            yield bytes(self.received[self.read : self.read + size])
            self.read += size

    def hear(self):
        """Answers what has come, and sends what may be sent."""
        out = b""
        for octets in self.frames():
            if self.is_consumer and octets[10] == TRANSFER:
                out += outcome(self.told)
                self.told += 1
            elif not self.is_consumer and octets[10] == DISPOSITION:
                assert octets.endswith(ACCEPTED), "an outcome other than accepted"
                first, place = uint_at(octets, 15)
                last = first if octets[place] in (0x40, 0x41) else uint_at(octets, place)[0]
                self.told += last - first + 1
            elif not self.is_consumer and octets[10] == FLOW:
                self.hear_flow(octets)
        while not self.is_consumer and self.sent < min(self.credit, self.told + UNDER_WAY):
            out += transfer(self.sent, b"\x00\x53\x77\xa1\x06%06d" % (self.sent % 1_000_000))
            self.sent += 1
        if out:
            self.socket.sendall(out)

    def hear_flow(self, octets):
        place, fields = 14, []
        while len(fields) < 7 and place < len(octets) and octets[place] in (0x43, 0x52, 0x70):
            number, place = uint_at(octets, place)
            fields.append(number)
        if len(fields) == 7:
            self.credit = fields[5] + fields[6]


def clients_of(place):
    """Consumers first, so that producers are given credit."""
    clients = [Client(place, number, True) for number in range(PAIRS)]
    return clients + [Client(place, number, False) for number in range(PAIRS)]


def exchange(clients):
    """Exchanges messages until the router is gone."""
    with contextlib.suppress(OSError):
        for client in clients:
            client.hear()
        while True:
            ready, _, _ = select.select([client.socket for client in clients], [], [], SECONDS)
            assert ready, f"nothing for {SECONDS} seconds"
            for client in clients:
                if client.socket in ready:
                    if not client.take():
                        return
                    client.hear()


def records_of(octets):
    """The frames written to each connection, how many records are whole, and where the last of them ends."""
    written, count, place = {}, 0, HEAD
    while len(octets) - place >= RECORD:
        length = int.from_bytes(octets[place + 14 : place + 18], "big")
        end = place + RECORD + length
        if end > len(octets):
            break
        if octets[place] == OUT:
            connection = int.from_bytes(octets[place + 1 : place + 5], "big")
            written.setdefault(connection, bytearray()).extend(octets[place + RECORD : end])
        count, place = count + 1, end
    return written, count, place


def wrongs_of(clients, capture, auditor):
    """What is wrong with what a router left, and a line about it."""
    octets = capture.read_bytes()
    written, count, end = records_of(octets)
    wrongs = []
    for number, client in enumerate(clients):
        if not written.get(number, b"").startswith(client.received[len(HEADER) :]):
            wrongs.append(f"client {number} received what the capture does not have")
    said = subprocess.run([auditor, capture], stdout=subprocess.PIPE, text=True, check=False).stdout.strip()
    whole = end == len(octets) and said.startswith(f"accepted records={count} ")
    if not whole and not (end < len(octets) and said == f"malformed offset={end}"):
        wrongs.append("not whole to a record's end")
    seen = sum(len(client.received) for client in clients)
    return wrongs, f"{count} records, {seen} octets seen; {said}"


def kill_one(router, auditor, folder, chance):
    """Lets a router serve, kills it, and answers whether all is well with what it left."""
    capture = pathlib.Path(folder) / "killed.cap"
    words = [router, "--listen", "127.0.0.1:0", "--capture", capture]
    running = subprocess.Popen(words, stdin=subprocess.DEVNULL, stdout=subprocess.DEVNULL, stderr=subprocess.PIPE, text=True)
    try:
        place = running.stderr.readline().rsplit(" ", 1)[1].strip().split(":")
        clients = clients_of((place[0], int(place[1])))
        threading.Timer(chance.uniform(0.05, 1.5), running.kill).start()
        exchange(clients)
    finally:
        running.kill()
        running.wait()
    for client in clients:
        while client.take():
            pass
    wrongs, line = wrongs_of(clients, capture, auditor)
    print(f"{line}{''.join('; WRONG: ' + wrong for wrong in wrongs)}", flush=True)
    os.remove(capture)
    return not wrongs


def main():
    router = sys.argv[1] if len(sys.argv) > 1 else HERE.parent / "bin" / "amqp_routerd"
    times = int(sys.argv[2]) if len(sys.argv) > 2 else 10
    auditor = pathlib.Path(router).parent / "amqp_audit"
    chance = random.Random()
    with tempfile.TemporaryDirectory() as folder:
        well = sum(kill_one(router, auditor, folder, chance) for _ in range(times))
    print(f"killed: {times} routers, {times - well} of them left something wrong")
    return 0 if well == times else 1


if __name__ == "__main__":
    sys.exit(main())
