"""The servers of names that tools/sockets plays at 127.0.0.x: most have a fault of their own."""

import queue
import socket
import struct
import threading
import time

from messages import A, ASKED, CNAME, NS, PATIENCE, TXT, aside, bound_at, frame, name, next_frame, number_of
from messages import query, question_of, record, reply

ROOT, SILENT, MUTE, LARGE, FORGED, SWAPPED, SLOW, TRICKLING, TARDY = (f"127.0.0.{last}" for last in range(2, 11))
STRANGER = "127.0.0.99"
# What a name has, and what a forger says that it has.
RIGHT, FALSE = bytes([192, 0, 2, 1]), bytes([192, 0, 2, 66])
# The zones that the root delegates, and where: one to an address that is never asked, one to four silent ones.
ZONES = {
    "silent": SILENT,
    "mute": MUTE,
    "large": LARGE,
    "forged": FORGED,
    "swapped": SWAPPED,
    "slow": SLOW,
    "trickling": TRICKLING,
    "tardy": TARDY,
    "lost": "0.0.0.0",
    "dead": f"{SILENT} 127.0.0.20 127.0.0.21 127.0.0.22",
}


def answer(asked, data, kind=A):
    return reply(asked, 0x8400, [record(ASKED, kind, data)])


def truncated(asked):
    return reply(asked, 0x8600)


def delegation(asked, zone, addresses):
    server = name("ns." + zone)
    glue = [record(server, A, socket.inet_aton(address)) for address in addresses.split()]
    return reply(asked, 0x8000, [], [record(name(zone), NS, server)], glue)


def of_root(asked, owner):
    host, _, zone = owner.rpartition(".")
    if zone in ZONES:
        return delegation(asked, zone, ZONES[zone])
    if host == "alias":
        return answer(asked, name("www." + zone), CNAME)
    return answer(asked, RIGHT)


class Servers:
    """The servers of names, each at its address, all at one port."""

    def __init__(self):
        self.seen, self.held, self.last = [], [], {}
        # How long each stream was open on which a byte came now and then.
        self.trickled = queue.Queue()
        self.lock = threading.Lock()
        self.later = queue.Queue()
        self.port, bound = bound_at((ROOT, SILENT, MUTE, LARGE, FORGED, SWAPPED, SLOW, TRICKLING, TARDY))
        self.datagrams = {address: server for address, (server, _) in bound.items()}
        self.strange, self.other, self.here = (socket.socket(socket.AF_INET, socket.SOCK_DGRAM) for _ in range(3))
        self.strange.bind((STRANGER, self.port))
        self.other.bind((FORGED, 0))
        self.here.bind(("127.0.0.1", self.port))
        for address, (server, listener) in bound.items():
            aside(self.take_datagrams, address, server)
            aside(self.take_streams, address, listener)
        aside(self.tell_later)

    def take_datagrams(self, address, server):
        while True:
            asked, sender = server.recvfrom(4096)
            owner, _ = question_of(asked)
            with self.lock:
                self.seen.append((address, owner, sender[1]))
                self.last[address] = time.monotonic()
            self.tell(address, asked, owner, sender)

    def tell(self, address, asked, owner, sender):
        one = self.datagrams[address]
        if address == ROOT:
            one.sendto(of_root(asked, owner), sender)
        elif address in (MUTE, LARGE, TRICKLING, TARDY):
            one.sendto(truncated(asked), sender)
        elif address == FORGED:
            self.forge(one, asked, sender)
        elif address == SWAPPED:
            self.swap(one, asked, sender)
        elif address == SLOW:
            told = reply(asked, 0x8402) if owner.startswith("failing") else answer(asked, RIGHT)
            self.later.put((time.monotonic() + 0.2, told, sender))

    def tell_later(self):
        while True:
            due, told, sender = self.later.get()
            time.sleep(max(0, due - time.monotonic()))
            self.datagrams[SLOW].sendto(told, sender)

    def forge(self, one, asked, sender):
        """Five replies that are none, and the right one in a while."""
        number = number_of(asked)
        one.sendto(answer(struct.pack(">H", number ^ 1) + asked[2:], FALSE), sender)
        one.sendto(answer(query(number, "other.forged"), FALSE), sender)
        one.sendto(answer(asked, FALSE).replace(b"\x84\x00", b"\x04\x00", 1), sender)
        self.other.sendto(answer(asked, FALSE), sender)
        self.strange.sendto(answer(asked, FALSE), sender)
        time.sleep(0.05)
        one.sendto(answer(asked, RIGHT), sender)

    def swap(self, one, asked, sender):
        """Each of two asks first gets the other one's reply."""
        self.held.append((asked, sender))
        if len(self.held) == 2:
            (first, at_first), (second, at_second) = self.held
            self.held.clear()
            one.sendto(answer(first, FALSE), at_second)
            one.sendto(answer(second, FALSE), at_first)
            time.sleep(0.05)
            one.sendto(answer(first, RIGHT), at_first)
            one.sendto(answer(second, RIGHT), at_second)

    def take_streams(self, address, listener):
        silent = []
        while True:
            stream, _ = listener.accept()
            if address in (LARGE, TARDY):
                aside(self.tell_frame, stream, address)
            elif address == TRICKLING:
                aside(self.trickle, stream)
            else:
                silent.append(stream)

    def tell_frame(self, stream, address):
        with stream:
            asked = next_frame(stream)
            if address == TARDY:
                time.sleep(0.3)
            if question_of(asked)[1] == TXT:
                stream.sendall(frame(answer(asked, (b"\xff" + b"x" * 255) * 230, TXT)))
            else:
                stream.sendall(frame(answer(asked, RIGHT)))

    def trickle(self, stream):
        """A byte of a long frame each 50 ms, until the other side closes the stream."""
        began = time.monotonic()
        with stream:
            try:
                while time.monotonic() < began + PATIENCE:
                    stream.sendall(b"\xff")
                    time.sleep(0.05)
            except OSError:
                pass
        self.trickled.put(time.monotonic() - began)

    def ports_of(self, address, owners):
        """From which ports this server was asked for these names."""
        with self.lock:
            return [port for at, owner, port in self.seen if at == address and owner in owners]
