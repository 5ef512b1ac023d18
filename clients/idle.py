#!/usr/bin/python3
"""Opens connections that say nothing but empty frames, and asks that those whose open has an idle-time-out hear something in time.

idle.py HOST:PORT prints a line for each try; its status is 1 where one went wrong. idle.py --connections prints how many
connections it makes. It needs Python alone.

The tries are these: a client with an idle-time-out of 500 milliseconds hears a frame at least each 500 milliseconds, for ten times
that; what it hears are the router's open, empty frames, and behind its own close the router's close. A client without an
idle-time-out, and one with an idle-time-out of nothing, hear no empty frame.
"""
import socket
import struct
import sys
import threading
import time

TIME_OUT = 0.5
LASTS = 10 * TIME_OUT

HEADER = b"AMQP\x00\x01\x00\x00"
EMPTY = b"\x00\x00\x00\x08\x02\x00\x00\x00"
OPEN, CLOSE = 0x10, 0x18


def frame(body):
    return struct.pack(">IBBH", 8 + len(body), 2, 0, 0) + body


def open_with(time_out):
    """An open of the container "idle", whose idle-time-out is this field."""
    items = b"\xa1\x04idle" + b"\x40\x40\x40" + time_out
    return frame(b"\x00\x53" + bytes([OPEN, 0xC0, len(items) + 1, 5]) + items)


CLOSES = frame(b"\x00\x53\x18\x45")


class Client:
    """A connection, which keeps when it heard each frame and what it was."""

    def __init__(self, address, time_out):
        self.socket = socket.create_connection(address, timeout=TIME_OUT)
        self.socket.sendall(HEADER + open_with(time_out))
        self.octets = b""
        self.heard = []
        self.has_header = False

    def listen(self, until):
        """Reads until this moment, or the end. An empty frame goes out now and then: the router asks for none."""
        spoke = time.monotonic()
        while time.monotonic() < until:
            if time.monotonic() - spoke > TIME_OUT:
                spoke = time.monotonic()
                self.socket.sendall(EMPTY)
            self.socket.settimeout(max(0.001, min(0.05, until - time.monotonic())))
            try:
                octets = self.socket.recv(65536)
            except socket.timeout:
                continue
            if not octets:
                return
            self.octets += octets
            self.take_frames()

    def take_frames(self):
        if not self.has_header:
            if len(self.octets) < 8:
                return
            assert self.octets[:8] == HEADER, f"{self.octets[:8]} is no header"
            self.octets, self.has_header = self.octets[8:], True
        while len(self.octets) >= 8:
            size = struct.unpack(">I", self.octets[:4])[0]
            assert size >= 8, "a frame of less than eight octets"
            if len(self.octets) < size:
                return
            self.heard.append((time.monotonic(), self.octets[:size]))
            self.octets = self.octets[size:]

    def close(self):
        self.socket.sendall(CLOSES)
        self.listen(time.monotonic() + 10)
        self.socket.close()


def kind_of(octets):
    """The code of a frame's performative; None of an empty frame."""
    return octets[10] if len(octets) > 10 else None


def hears_in_time(address):
    client = Client(address, b"\x70" + struct.pack(">I", int(TIME_OUT * 1000)))
    start = time.monotonic()
    client.listen(start + LASTS)
    last = start
    for moment, _ in client.heard:
        assert moment - last <= TIME_OUT, f"nothing for {moment - last:.3f} seconds"
        last = moment
    assert start + LASTS - last <= TIME_OUT, f"nothing for the last {start + LASTS - last:.3f} seconds"
    client.close()
    kinds = [kind_of(octets) for _, octets in client.heard]
    assert kinds[0] == OPEN and kinds[-1] == CLOSE, f"the frames are {kinds}"
    empty = [octets for _, octets in client.heard[1:-1]]
    assert all(octets == EMPTY for octets in empty), "a frame that is not empty between open and close"
    # One behind each quarter of a second, and no more.
    most = LASTS / (TIME_OUT / 2)
    assert most / 2 <= len(empty) <= most, f"{len(empty)} empty frames"


def hears_nothing(address, time_out):
    client = Client(address, time_out)
    client.listen(time.monotonic() + 4 * TIME_OUT)
    client.close()
    kinds = [kind_of(octets) for _, octets in client.heard]
    assert kinds == [OPEN, CLOSE], f"the frames are {kinds}"


TRIES = {
    "half a second": hears_in_time,
    "half a second, beside it": hears_in_time,
    "without": lambda address: hears_nothing(address, b"\x40"),
    "nothing": lambda address: hears_nothing(address, b"\x43"),
}


def main():
    if sys.argv[1] == "--connections":
        print(len(TRIES))
        return 0
    host, port = sys.argv[1].rsplit(":", 1)
    told = dict.fromkeys(TRIES)

    def run(name):
        try:
            TRIES[name]((host, int(port)))
            told[name] = "as it should"
        except Exception as fault:  # pylint: disable=broad-except
            told[name] = f"wrong: {fault!r}"

    threads = [threading.Thread(target=run, args=(name,)) for name in TRIES]
    for thread in threads:
        thread.start()
    for thread in threads:
        thread.join()
    for name, line in told.items():
        print(f"{name}: {line}")
    return int(any(line != "as it should" for line in told.values()))


if __name__ == "__main__":
    sys.exit(main())
