#!/usr/bin/python3
"""A consumer that takes nothing for some seconds, and what the router holds for it meanwhile.

    clients/slow.py [ROUTER]   ROUTER is the program, without it bin/amqp_routerd, which ./build makes

The consumer has credit for all that comes, and takes it settled, so that nothing but `--buffer` bounds what waits for it. While it does
not read, the router hears no producer once as much waits, and its memory stays; once it reads, all messages come, in order and
unaltered. It prints the most octets that waited, how many messages the producer got rid of while the consumer did not read, and how
many came in the end. Status 1 where one is missing or altered, or more waited than the buffer and a round make. It needs Python alone.
"""
import pathlib
import re
import socket
import subprocess
import sys
import tempfile
import threading
import time

# What is imported leaves nothing beside it.
sys.dont_write_bytecode = True

from hostile import ATTACH, NULL, STARTED, TRANSFER, TRUE, described, flow, frame, string, transfer, uint
from soak import Peer, resident

HERE = pathlib.Path(__file__).resolve().parent
BUFFER = 1_000_000
COUNT, SIZE = 20_000, 1_000
SECONDS = 4
# What one round makes due behind a buffer that is just full: what the producer has sent of its 250 messages, with their frames.
ROUND = 400_000
SETTLED = b"\x50\x01"


def attach_settled(address):
    """A consumer to whom all is sent settled."""
    source = described(0x28, string(address))
    return frame(described(ATTACH, string(address), uint(0), TRUE, SETTLED, NULL, source, NULL, NULL, NULL, NULL))


def payload(number):
    """A data section of so many octets, which tells its number."""
    return b"\x00\x53\x75\xb0" + SIZE.to_bytes(4, "big") + b"%010d" % number + bytes(SIZE - 10)


class Slow(Peer):
    """That consumer."""

    def __init__(self, place, address):
        self.socket = socket.socket()
        self.socket.setsockopt(socket.SOL_SOCKET, socket.SO_RCVBUF, 4096)
        self.socket.settimeout(30)
        self.socket.connect(place)
        self.octets, self.count = b"", 0
        self.send(STARTED + attach_settled(address) + flow(COUNT))
        while len(self.octets) < 8:
            self.take()
        self.octets = self.octets[8:]
        self.heard(ATTACH)


def produce(producer):
    """Sends all messages, as far as the router takes them."""
    for number in range(COUNT):
        producer.send(transfer(number, payload(number)))
        producer.count = number + 1


def hear_all(producer):
    """Reads what the producer is told, so that the router can write it."""
    try:
        while producer.socket.recv(1 << 16):
            pass
    except OSError:
        pass


def try_slow(router, folder):
    """Whether all was well."""
    words = [router, "--listen", "127.0.0.1:0", "--capture", folder / "slow.cap", "--buffer", str(BUFFER), "--stats", "1"]
    running = subprocess.Popen(words, stdin=subprocess.PIPE, stdout=subprocess.PIPE, stderr=subprocess.PIPE, text=True)
    host, port = running.stderr.readline().rsplit(" ", 1)[1].strip().split(":")
    place, said = (host, int(port)), []
    threading.Thread(target=lambda: said.extend(running.stderr), daemon=True).start()
    consumer, producer = Slow(place, b"q"), Peer(place, b"q")
    before = resident(running.pid)
    threading.Thread(target=hear_all, args=(producer,), daemon=True).start()
    threading.Thread(target=produce, args=(producer,), daemon=True).start()
    time.sleep(SECONDS)
    sent, grown = producer.count, resident(running.pid) - before
    came = 0
    while came < COUNT and payload(came) in consumer.heard(TRANSFER):
        came += 1
    running.communicate("quit\n", timeout=30)
    waited = max((int(it) for it in re.findall(r" waiting=(\d+)", "".join(said))), default=0)
    print(f"slow: {waited} octets waited at most (buffer {BUFFER}), {sent} of {COUNT} messages were sent meanwhile, memory grew by {grown} KB; {came} came")
    return came == COUNT and sent < COUNT and 0 < waited <= BUFFER + ROUND


def main():
    router = pathlib.Path(sys.argv[1]) if len(sys.argv) > 1 else HERE.parent / "bin" / "amqp_routerd"
    with tempfile.TemporaryDirectory() as folder:
        return 0 if try_slow(router, pathlib.Path(folder)) else 1


if __name__ == "__main__":
    sys.exit(main())
