"""Messages of the DNS (RFC 1035) in bytes, and the sockets that carry them, for the scripts of this folder."""

import socket
import struct
import threading
import time

# Seconds in which anything at all has to happen.
PATIENCE = 10
A, NS, CNAME, SOA, PTR, MX, TXT, AAAA, HTTPS, ANY, CAA = 1, 2, 5, 6, 12, 15, 16, 28, 65, 255, 257
# A pointer to the question's name, as the owner of a record.
ASKED = b"\xc0\x0c"


def name(text):
    labels = [label.encode() for label in text.split(".") if label]
    return b"".join(bytes([len(label)]) + label for label in labels) + b"\0"


def query(number, owner, kind=A, flags=0x0100):
    """A query, with RD where nothing else is said."""
    return struct.pack(">6H", number & 0xFFFF, flags, 1, 0, 0, 0) + name(owner) + struct.pack(">2H", kind, 1)


def query_by_pointer(number, owner):
    """A query whose name ends with a pointer to a zero of the header, in its count of questions (RFC 1035, 4.1.4)."""
    plain = query(number, owner)
    return plain[:-5] + b"\xc0\x04" + plain[-4:]


def long_query(number, owner):
    """A query with a record of EDNS behind it, which has 600 bytes of padding."""
    plain = query(number, owner)
    padding = struct.pack(">HH", 12, 600) + bytes(600)
    return plain[:10] + b"\0\1" + plain[12:] + b"\0" + struct.pack(">HHIH", 41, 1232, 0, len(padding)) + padding


def question_of(message):
    """The name of a query, in lower case, and its type."""
    labels, at = [], 12
    while message[at]:
        labels.append(message[at + 1 : at + 1 + message[at]].decode().lower())
        at += 1 + message[at]
    return ".".join(labels), struct.unpack(">H", message[at + 1 : at + 3])[0]


def number_of(message):
    return struct.unpack(">H", message[:2])[0]


def rcode_of(message):
    return message[3] & 15


def record(owner, kind, data, ttl=300):
    return owner + struct.pack(">HHIH", kind, 1, ttl, len(data)) + data


def soa(server, mail, *numbers):
    """The data of an SOA record."""
    return name(server) + name(mail) + struct.pack(">5I", *numbers)


def reply(asked, flags, answer=(), authority=(), additional=()):
    """A reply to the bytes of a query. What stands behind their question is left out."""
    counts = [len(section) for section in (answer, authority, additional)]
    question = asked[12 : asked.index(b"\0", 12) + 5]
    return asked[:2] + struct.pack(">5H", flags, 1, *counts) + question + b"".join((*answer, *authority, *additional))


def frame(data):
    return struct.pack(">H", len(data)) + data


def frames_in(data):
    """The messages of the whole frames at the head of these bytes, and what stands behind them."""
    found, at = [], 0
    while (end := at + 2 + int.from_bytes(data[at : at + 2], "big")) <= len(data):
        found.append(data[at + 2 : end])
        at = end
    return found, data[at:]


def next_frame(stream):
    """The message of the next frame on a stream, behind which nothing may come yet."""
    data, found, behind = b"", [], b""
    while not found:
        more = stream.recv(65_537)
        if not more:
            raise OSError(f"the stream ends after {len(data)} bytes")
        data += more
        found, behind = frames_in(data)
    if found[1:] or behind:
        raise OSError(f"{len(data)} in place of {2 + len(found[0])}")
    return found[0]


def frames_on(stream, count):
    """The frames that come on a stream, by their ID: so many, or all until it ends."""
    data, seen = b"", {}
    while len(seen) < count:
        more = stream.recv(65_537)
        if not more:
            break
        found, data = frames_in(data + more)
        seen.update((number_of(one), one) for one in found)
    return seen


def send_all(questions):
    """Sends the names of these clients, under their places, and waits after every hundred, so that none is lost."""
    for place, (client, owner) in enumerate(questions):
        client.send(query(place, owner))
        if place % 100 == 99:
            time.sleep(0.005)


def datagrams(address, source=None, patience=PATIENCE):
    """A client's socket, with room for many replies."""
    client = socket.socket(socket.AF_INET6 if ":" in address[0] else socket.AF_INET, socket.SOCK_DGRAM)
    client.setsockopt(socket.SOL_SOCKET, socket.SO_RCVBUF, 1 << 20)
    client.settimeout(patience)
    if source:
        client.bind((source, 0))
    client.connect(address)
    return client


def exchange(address, data, source=None, patience=PATIENCE):
    """The reply to these bytes in a datagram."""
    with datagrams(address, source, patience) as client:
        client.send(data)
        return client.recv(4096)


def exchange_on_a_stream(address, data, patience=PATIENCE):
    """The reply to these bytes on a stream of their own."""
    with socket.create_connection(address, patience) as client:
        client.sendall(frame(data))
        return next_frame(client)


def bound(address="127.0.0.1", port=0, tries=20):
    """A server's sockets for datagrams and for streams at one port: this one, or one that is free for both."""
    server = socket.socket(socket.AF_INET, socket.SOCK_DGRAM)
    server.setsockopt(socket.SOL_SOCKET, socket.SO_RCVBUF, 1 << 20)
    try:
        server.bind((address, port))
        return server, socket.create_server(server.getsockname(), backlog=300)
    except OSError:
        server.close()
        if port or tries == 1:
            raise
    return bound(address, port, tries - 1)


def bound_at(addresses):
    """The same at each of these addresses, all at one port: the port, and the two sockets by their address."""
    found, port = {}, 0
    for address in addresses:
        found[address] = bound(address, port)
        port = found[address][0].getsockname()[1]
    return port, found


def free_port():
    """One that is free for UDP and TCP."""
    server, listener = bound()
    with server, listener:
        return server.getsockname()[1]


def aside(work, *given):
    """Does this in a thread that ends with the script."""
    threading.Thread(target=work, args=given, daemon=True).start()


def tell_datagrams(server, told):
    """Sends what is told of each query, where anything is, until the socket is closed."""
    while True:
        try:
            asked, sender = server.recvfrom(4096)
            said = told(asked)
            if said is not None:
                server.sendto(said, sender)
        except OSError:
            return


def tell_streams(listener, told):
    """The same of one query a stream, one stream after the other."""
    while True:
        with listener.accept()[0] as stream:
            stream.settimeout(PATIENCE)
            try:
                said = told(next_frame(stream))
                if said is not None:
                    stream.sendall(frame(said))
            except OSError:
                pass
