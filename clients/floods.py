#!/usr/bin/python3
"""Floods a router, and measures what that costs it and what a lawful pair of clients gets meanwhile.

    clients/floods.py [ROUTER [FLOOD]...]    ROUTER is the program, without it bin/amqp_router, which ./build makes

Each flood has a router of its own with one worker, since a router ends when so many connections as it was told have ended. Beside
the flood a lawful pair exchanges messages: it makes 5,000 a second, and while 50 are under way that have no outcome it makes none,
also not later. A flood comes, stays four seconds, and is gone; the pair ends two seconds behind it. It prints a line for each:

    resident, peak   megabytes of the router before the flood and behind it (VmRSS), and the most it had (VmHWM)
    processor        seconds of the router's processor time from before the flood to behind it, and how long that was
    pair             messages a second that arrived while the flood came and while it stayed, and the longest time from a
                     message to its outcome, while it goes too
    what             what the flood did, and what of it was refused

Status 1 where a message of the pair did not arrive or was not accepted, or a router died. It needs Python alone. The last line
of a run begins with "floods: ".
"""
import contextlib
import os
import pathlib
import resource
import select
import socket
import struct
import subprocess
import sys
import tempfile
import threading
import time

# What is imported leaves nothing beside it.
sys.dont_write_bytecode = True

import hostile
from hostile import ATTACH, BEGIN, CLOSE, CLOSING, DISPOSITION, ECHO, FALSE, FLOW, HEADER, MANY, NULL, OPEN, STARTED, TRANSFER, TRUE
from hostile import attach, described, flow, frame, string, transfer, uint

# Answers that hostile.py has no name for, and a consumer's source.
BEGUN, DETACH, END = 0x11, 0x16, 0x17
SOURCE = 0x28

HERE = pathlib.Path(__file__).resolve().parent
SECONDS = 120

# How long a flood stays, and how long the pair goes on behind it.
STAYS, BEHIND = 4, 2

# Four records each, of a million that a capture has room for.
MOST_MESSAGES = 100_000
UNDER_WAY = 50
PACE = 5000

SESSIONS, LINKS = 256, 1000
CONNECTIONS = 10_000
PARTS, PARTED = 10_000, 10
ECHOES = 100_000
DEAF = 10


class Reader:
    """Cuts what a connection gives into frames."""

    def __init__(self, connection):
        self.socket = connection
        self.octets = bytearray()
        self.has_header = False

    def frames(self):
        more = self.socket.recv(1 << 16)
        if not more:
            raise ConnectionError("the router ended the connection")
        self.octets += more
        if not self.has_header:
            if len(self.octets) < 8:
                return
            del self.octets[:8]
            self.has_header = True
        start = 0
        while len(self.octets) - start >= 4:
            size = int.from_bytes(self.octets[start : start + 4], "big")
            if len(self.octets) - start < size:
                break
            yield bytes(self.octets[start : start + size])
            start += size
        del self.octets[:start]


# The lawful pair, which is a process of its own.


def outcome(number):
    return frame(described(DISPOSITION, TRUE, uint(number), uint(number), TRUE, hostile.ACCEPTED))


def uint_at(octets, place):
    """The uint that stands there, and where the next value begins."""
    if octets[place] == 0x43:
        return 0, place + 1
    if octets[place] == 0x52:
        return octets[place + 1], place + 2
    return int.from_bytes(octets[place + 1 : place + 5], "big"), place + 5


class Pair:
    """A producer and a consumer, on one thread."""

    def __init__(self, place):
        self.consumer, self.producer = hostile.Connection(place), hostile.Connection(place)
        for one, is_consumer in ((self.consumer, True), (self.producer, False)):
            one.socket.setsockopt(socket.IPPROTO_TCP, socket.TCP_NODELAY, 1)
            one.socket.setsockopt(socket.SOL_SOCKET, socket.SO_RCVBUF, 1 << 18)
            one.send(STARTED + attach(is_consumer, b"lawful") + (flow(MANY) if is_consumer else b""))
            one.take(len(HEADER))
            one.heard(ATTACH)
        self.sent, self.credit, self.arrived, self.longest = 0, 0, 0, 0.0
        self.told = {}
        self.producer.heard(FLOW)
        self.credit = 250

    def send(self, due):
        """Sends those that are due, as far as they may be under way."""
        out = b""
        while len(self.told) < UNDER_WAY and self.sent < min(due, self.credit, MOST_MESSAGES):
            out += transfer(self.sent, b"\x00\x53\x77\xa1\x06%06d" % self.sent)
            self.told[self.sent] = time.monotonic()
            self.sent += 1
        self.producer.send(out)

    def hear_consumer(self, octets):
        if octets[10] != TRANSFER:
            return b""
        assert octets.endswith(b"%06d" % self.arrived), "another message than the next one"
        self.arrived += 1
        return outcome(self.arrived - 1)

    def hear_producer(self, octets):
        if octets[10] == DISPOSITION:
            first, place = uint_at(octets, 15)
            last = first if octets[place] == 0x40 or octets[place] == 0x41 else uint_at(octets, place)[0]
            assert octets.endswith(hostile.ACCEPTED), "an outcome other than accepted"
            for number in range(first, last + 1):
                self.longest = max(self.longest, time.monotonic() - self.told.pop(number))
        elif octets[10] == FLOW:
            place, fields = 14, []
            while len(fields) < 7 and place < len(octets) and octets[place] in (0x43, 0x52, 0x70):
                number, place = uint_at(octets, place)
                fields.append(number)
            if len(fields) == 7:
                self.credit = fields[5] + fields[6]

    def exchange(self):
        """Exchanges messages until standard input ends, and then takes what is still under way.

        Answers, for each octet of standard input, when it came and how many messages had arrived.
        """
        readers = Reader(self.consumer.socket), Reader(self.producer.socket)
        for reader in readers:
            reader.has_header = True
        heard = before = time.monotonic()
        marks, due, is_asked = [], 1.0, True
        while is_asked or self.told:
            now = time.monotonic()
            due, before = min(due + (now - before) * PACE, self.sent + UNDER_WAY), now
            self.send(due if is_asked else 0)
            watched = [reader.socket for reader in readers] + ([sys.stdin] if is_asked else [])
            ready, _, _ = select.select(watched, [], [], 1 / PACE)
            heard = time.monotonic() if ready else heard
            assert time.monotonic() - heard < SECONDS, f"nothing for {SECONDS} seconds, {len(self.told)} messages under way"
            if sys.stdin in ready:
                is_asked = os.read(0, 1) != b""
                marks.append((time.monotonic(), self.arrived))
            if readers[0].socket in ready:
                self.consumer.send(b"".join(map(self.hear_consumer, readers[0].frames())))
            if readers[1].socket in ready:
                for octets in readers[1].frames():
                    self.hear_producer(octets)
        assert self.arrived == self.sent, f"{self.sent} messages sent, {self.arrived} arrived"
        return marks

    def close(self):
        for connection in (self.consumer, self.producer):
            connection.send(CLOSING)
            connection.close()


def run_pair(port):
    pair = Pair(("127.0.0.1", port))
    print("ready", flush=True)
    try:
        (begun, none), (come, some), (stayed, more), *_ = pair.exchange()
    except (AssertionError, OSError, LookupError, ValueError) as fault:
        print(f"wrong {fault}")
        return 1
    print(pair.arrived, (some - none) / (come - begun), (more - some) / (stayed - come), pair.longest, flush=True)
    pair.close()
    return 0


# The floods. Each answers the connections that stay, and tells what it did.


def flood_nothing(_):
    time.sleep(STAYS)
    return [], "the pair alone"


def on_channel(octets, channel):
    return octets[:6] + struct.pack(">H", channel) + octets[8:]


def numbered_attach(channel, handle):
    """A consumer's link of an address of its own."""
    name = b"f/%d/%d" % (channel, handle)
    end = described(SOURCE, string(name))
    return on_channel(frame(described(ATTACH, string(name), uint(handle), TRUE, NULL, NULL, end, NULL)), channel)


def count_frames(client, counts):
    """Reads until the router ends the connection, and counts frames by their performative."""
    reader = Reader(client.socket)
    with contextlib.suppress(OSError):
        while True:
            for octets in reader.frames():
                counts[octets[10]] = counts.get(octets[10], 0) + 1


def flood_links(place):
    client, counts = hostile.Connection(place), {}
    client.socket.settimeout(SECONDS)
    threading.Thread(target=count_frames, args=(client, counts), daemon=True).start()
    client.send(HEADER + OPEN)
    with contextlib.suppress(ConnectionError):
        for channel in range(SESSIONS):
            client.send(on_channel(BEGIN, channel))
            client.send(b"".join(numbered_attach(channel, handle) for handle in range(LINKS)))
        # The answer to the last one, or no answer for some seconds.
        last, seen = time.monotonic(), -1
        while counts.get(ATTACH, 0) < SESSIONS * LINKS and time.monotonic() - last < 20:
            if counts.get(ATTACH, 0) != seen:
                last, seen = time.monotonic(), counts.get(ATTACH, 0)
            time.sleep(0.05)
    done = f"{SESSIONS} sessions with {LINKS} links each, answered {counts.get(BEGUN, 0)} begins and {counts.get(ATTACH, 0)} attaches"
    return [client], f"{done}, refused {counts.get(DETACH, 0) + counts.get(END, 0) + counts.get(CLOSE, 0)}"


def part(number, is_last):
    head = described(TRANSFER, uint(0), uint(number), b"\xa0\x04" + struct.pack(">I", number), uint(0), FALSE, FALSE if is_last else TRUE)
    return frame(head + b"x")


def flood_parts(place):
    consumer, producer = hostile.Connection(place), hostile.Connection(place)
    consumer.send(STARTED + attach(True, b"parts") + flow(MANY))
    consumer.take(len(HEADER))
    consumer.heard(ATTACH)
    producer.send(STARTED + attach(False, b"parts"))
    producer.take(len(HEADER))
    producer.heard(FLOW)
    arrived = 0
    for number in range(PARTED):
        producer.send(part(number, False) * (PARTS - 1) + part(number, True))
        arrived += consumer.heard(TRANSFER).count(b"x" * PARTS)
        consumer.send(outcome(number))
        producer.heard(DISPOSITION)
    return [consumer, producer], f"{PARTED} messages, one behind the other, in {PARTS} transfers of an octet each; {arrived} arrived"


def flood_echoes(place):
    client = hostile.Connection(place)
    client.socket.settimeout(10)
    client.send(STARTED)
    sent = 0
    with contextlib.suppress(OSError):
        for _ in range(ECHOES // 100):
            client.send(ECHO * 100)
            sent += 100
    return [client], f"{sent} of {ECHOES} flows that ask for an echo went out to the router, and no answer is read"


def flood_messages(place):
    staying = []
    for number in range(DEAF):
        staying += hostile.fill(place, b"deaf %d" % number)
    return staying, f"{DEAF} consumers with credit without end that read none of 4 MB each"


def silent(place, octets):
    count = min(CONNECTIONS, resource.getrlimit(resource.RLIMIT_NOFILE)[0] - 100)
    clients = []
    with contextlib.suppress(OSError):
        for _ in range(count):
            client = hostile.Connection(place)
            clients.append(client)
            if octets:
                client.send(octets)
    return clients, f"{len(clients)} of {count} connections that say {'half a header' if octets else 'nothing'}"


# How many connections each one makes.
FLOODS = {
    "none": (flood_nothing, 0),
    "links": (flood_links, 1),
    "parts": (flood_parts, 2),
    "echoes": (flood_echoes, 1),
    "messages": (flood_messages, 2 * DEAF),
    "silent": (lambda place: silent(place, b""), None),
    "halves": (lambda place: silent(place, HEADER[:4]), None),
}


# The router.


def status_of(pid):
    """Its resident and its greatest memory in megabytes, and its processor time in seconds."""
    lines = dict(line.split(":", 1) for line in pathlib.Path(f"/proc/{pid}/status").read_text().splitlines())
    fields = pathlib.Path(f"/proc/{pid}/stat").read_text().rsplit(")", 1)[1].split()
    ticks = int(fields[11]) + int(fields[12])
    return int(lines["VmRSS"].split()[0]) / 1024, int(lines["VmHWM"].split()[0]) / 1024, ticks / os.sysconf("SC_CLK_TCK")


def wait_for(router, port):
    """Waits until the router listens. To try a connection would take one of its own."""
    sign = f": 0100007F:{port:04X} 00000000:0000 0A"
    while router.poll() is None and sign not in pathlib.Path("/proc/net/tcp").read_text():
        time.sleep(0.05)


def free_port():
    with socket.socket() as one:
        one.bind(("127.0.0.1", 0))
        return one.getsockname()[1]


def mark(pair):
    """Asks the pair to keep how many messages have arrived."""
    pair.stdin.write("-")
    pair.stdin.flush()


def measured(router, pair, place, flood):
    """Floods, and answers what it cost."""
    first, begun = status_of(router.pid), time.monotonic()
    mark(pair)
    staying, what = flood(place)
    mark(pair)
    time.sleep(STAYS)
    mark(pair)
    seconds = time.monotonic() - begun
    second = status_of(router.pid)
    # The pair is there while the router hears that they are gone, too.
    for client in staying:
        with contextlib.suppress(OSError):
            client.socket.shutdown(socket.SHUT_RDWR)
        client.close()
    time.sleep(BEHIND)
    said, _ = pair.communicate(timeout=SECONDS)
    return first, second, seconds, what, said.split()


def ended(router):
    """The router's line, once it has ended."""
    try:
        return router.communicate(timeout=SECONDS)[0].strip()
    except subprocess.TimeoutExpired:
        router.kill()
        return f"not ended after {SECONDS} seconds"


def run_flood(program, name, folder):
    """Prints the flood's line, and answers whether all was well."""
    flood, connections = FLOODS[name]
    if connections is None:
        connections = min(CONNECTIONS, resource.getrlimit(resource.RLIMIT_NOFILE)[0] - 100)
    port = free_port()
    words = [program, f"127.0.0.1:{port}", f"{folder}/{name}.cap", "1", str(connections + 2)]
    router = subprocess.Popen(words, stdout=subprocess.PIPE, stderr=subprocess.STDOUT, text=True)
    wait_for(router, port)
    pair = subprocess.Popen([sys.executable, __file__, "--pair", str(port)], stdin=subprocess.PIPE, stdout=subprocess.PIPE, text=True)
    try:
        pair.stdout.readline()
        first, second, seconds, what, said = measured(router, pair, ("127.0.0.1", port), flood)
    except (OSError, LookupError, ValueError, subprocess.TimeoutExpired) as fault:
        pair.kill()
        router.kill()
        print(f"{name}: wrong: {fault!r}; router: {ended(router)}", flush=True)
        return False
    line = ended(router)
    is_well = pair.returncode == 0 and line.startswith("served connections=")
    got = " ".join(said)
    if pair.returncode == 0:
        come, stayed, longest = map(float, said[1:])
        got = f"{said[0]} messages, {come:,.0f} and {stayed:,.0f} a second, longest {longest * 1000:,.0f} ms"
    memory = f"resident {first[0]:,.1f} to {second[0]:,.1f} MB, peak {second[1]:,.1f} MB"
    cost = f"{memory}; processor {second[2] - first[2]:.1f} s of {seconds:.1f} s"
    print(f"{name}: {cost}; pair {got}; {what}; router: {line}", flush=True)
    return is_well


def main():
    if sys.argv[1:2] == ["--pair"]:
        return run_pair(int(sys.argv[2]))
    program = str(pathlib.Path(sys.argv[1] if len(sys.argv) > 1 else HERE.parent / "bin" / "amqp_router").resolve())
    names = sys.argv[2:] or list(FLOODS)
    if not os.access(program, os.X_OK) or any(name not in FLOODS for name in names):
        print(f"usage: floods.py [ROUTER [{' | '.join(FLOODS)}]...]", file=sys.stderr)
        return 64
    hard = resource.getrlimit(resource.RLIMIT_NOFILE)[1]
    resource.setrlimit(resource.RLIMIT_NOFILE, (hard, hard))
    with tempfile.TemporaryDirectory() as folder:
        wrong = sum(not run_flood(program, name, folder) for name in names)
    print(f"floods: {len(names)} of them, {wrong} wrong")
    return int(wrong > 0)


if __name__ == "__main__":
    sys.exit(main())
