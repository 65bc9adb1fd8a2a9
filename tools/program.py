"""Runs the program as a server, and judges what it does, for the scripts of this folder."""

import os
import pathlib
import queue
import select
import socket
import struct
import subprocess
import sys
import tempfile
import time

from messages import A, PATIENCE, datagrams, exchange, frame, next_frame, query

TOP = pathlib.Path(__file__).resolve().parent.parent
# The script that runs, as its lines name it.
TOOL = f"tools/{pathlib.Path(sys.argv[0]).name}"
PROVED = str(TOP / "crates/resolverd/out/resolverd")


class Wrong(Exception):
    """What was seen in place of what was wanted."""


# What ends one check: what it saw, nothing in time, or bytes that are no message.
FAULTS = (Wrong, OSError, LookupError, ValueError, queue.Empty, struct.error, subprocess.SubprocessError)


def same(seen, wanted):
    if seen != wanted:
        raise Wrong(f"{seen!r} in place of {wanted!r}")


def within(seconds, since, what):
    passed = time.monotonic() - since
    if passed > seconds:
        raise Wrong(f"{what} took {passed:.2f} s, over {seconds}")


def fault_of(check, *given):
    """A check's name and what it saw, or none where it passes."""
    try:
        check(*given)
        return None
    except FAULTS as why:
        return f"{check.__name__}: {str(why) or repr(why)}"


def holds(check, *given):
    """Whether a check passes; else its line is printed."""
    fault = fault_of(check, *given)
    if fault:
        print(f"{TOOL}: {fault}", file=sys.stderr)
    return not fault


def program_at(place):
    """The program that this word of the command line names, or the proved one."""
    return os.path.abspath(sys.argv[place]) if len(sys.argv) > place else PROVED


def need(program):
    """Ends the script where there is no program."""
    if not os.access(program, os.X_OK):
        print(f"{TOOL}: {program} is not there; make prove-program builds it", file=sys.stderr)
        sys.exit(2)


def put(folder, file, text):
    with open(os.path.join(folder, file), "w", encoding="ascii") as out:
        out.write(text)


def started(words, folder, **how):
    """A process of these words, in a folder, whose output is read."""
    return subprocess.Popen(words, cwd=folder, stdout=subprocess.PIPE, text=True, **how)


def first_line(process):
    """The line by which a server says where it listens."""
    if not select.select([process.stdout], [], [], PATIENCE)[0]:
        raise Wrong("no line that says where it listens")
    return process.stdout.readline()


def address_of(process):
    """Where it listens."""
    line = first_line(process)
    words = line.split()
    if words[:2] != ["listening", "127.0.0.1"] or len(words) != 3:
        raise Wrong(f"{line!r} in place of the line that says where it listens")
    return words[1], int(words[2])


def printed(process, otherwise="it goes on"):
    """What it prints to both outputs until it ends; one that goes on is ended, which is a fault."""
    try:
        return process.communicate(timeout=PATIENCE)
    except subprocess.TimeoutExpired:
        process.kill()
        process.communicate()
        raise Wrong(otherwise) from None


class Server:
    """The program, serving, in a folder of its own with these files, of which it reads the first."""

    def __init__(self, program, files, **how):
        self.folder = tempfile.TemporaryDirectory()
        for file, text in files.items():
            put(self.folder.name, file, text)
        self.process = started([program, "serve", next(iter(files))], self.folder.name, **how)
        try:
            self.at = address_of(self.process)
        except FAULTS:
            self.end()
            raise

    def __enter__(self):
        return self

    def __exit__(self, *_):
        self.end()

    def end(self):
        self.process.kill()
        self.process.communicate()
        self.folder.cleanup()

    def descriptors(self):
        return len(os.listdir(f"/proc/{self.process.pid}/fd"))

    def wakings(self):
        """How often its threads have waked by themselves."""
        count = 0
        for thread in os.listdir(f"/proc/{self.process.pid}/task"):
            with open(f"/proc/{self.process.pid}/task/{thread}/status", encoding="ascii") as status:
                count += sum(int(line.split()[1]) for line in status if line.startswith("voluntary_ctxt_switches"))
        return count

    def datagrams(self, source="127.0.0.1"):
        return datagrams(self.at, source)

    def stream(self, source="127.0.0.1"):
        return socket.create_connection(self.at, PATIENCE, (source, 0))

    def ask(self, owner, seconds=PATIENCE, source="127.0.0.1"):
        """The address that a name has, by a datagram, in time."""
        began = time.monotonic()
        try:
            seen = exchange(self.at, query(7, owner), source)
        except TimeoutError:
            raise Wrong(f"no reply for {owner}") from None
        within(seconds, began, owner)
        return seen[-4:]

    def ask_on(self, stream, owner, seconds, kind=A):
        """The reply to a question on a stream, in time."""
        began = time.monotonic()
        stream.settimeout(PATIENCE)
        stream.sendall(frame(query(9, owner, kind)))
        seen = next_frame(stream)
        within(seconds, began, owner)
        same(seen[:2], b"\x00\x09")
        return seen

    def goes_down_to(self, count, seconds, since, what):
        """The descriptors come to this number in time, counted from the moment that `since` gives."""
        while self.descriptors() > count:
            if time.monotonic() > since() + seconds:
                raise Wrong(f"{self.descriptors()} descriptors {seconds} s after {what}, over {count}")
            time.sleep(0.02)

    def comes_up_to(self, count, seconds, what):
        """There are so many descriptors in time."""
        ends = time.monotonic() + seconds
        while self.descriptors() < count:
            if time.monotonic() > ends:
                raise Wrong(f"{self.descriptors()} descriptors after {what}, under {count}")
            time.sleep(0.005)

    def settled(self):
        """The descriptors, once they have been as many for half a second."""
        count, since = self.descriptors(), time.monotonic()
        while time.monotonic() < since + 0.5:
            time.sleep(0.02)
            if self.descriptors() != count:
                count, since = self.descriptors(), time.monotonic()
        return count
