"""A plain peer that keeps a session Up, and datagrams that want to harm a serving program. tests/hostile stands on it.

All is sent from one thread on one processor, so each link hears what it is sent in the order in which `Traffic` noted it. Which
datagrams are entries of a journal is decided by the discard tests of docs/PROTOCOL.md, once more in plain Python.
"""
import os
import random
import socket
import time
from pathlib import Path

import packet
from outside import LINK_PORTS, Wrong

LOCAL, PEER, OTHER, NOBODY = "127.0.0.1", "127.0.0.2", "127.0.0.3", "127.0.0.9"
SINGLE, MULTI, ECHO, SBFD, ANSWER = LINK_PORTS
WORDS = {SINGLE: "single", MULTI: "multi", ANSWER: "answer"}
SECRET = bytes.fromhex("736563726574")
MOST_QUEUED = 60_000  # bytes; a socket's buffer has some 200,000

# The session that the peer keeps Up, and one of each other kind, all without keys, at which anybody may aim.
KEPT = (f"p2p 1 single 1 {LOCAL} {PEER} active 300000 300000 3 0 1", "auth 1 5 5 736563726574")
AIMS = (f"p2p 2 multi 1 {LOCAL} {OTHER} active 300000 300000 3 0 2", f"sbfd 5 900 1 {LOCAL} {NOBODY} 300000 3 0",
        f"tail 30 77 1 {LOCAL} {OTHER}", f"head 40 1 {LOCAL} {NOBODY} 300000 3 0", "reflector 900 50000 up")
DISCRS = (1, 2, 5, 30, 40)


def named(port, data, source):
    """The session whose journal has this datagram, or None: the discard tests up to selection, docs/PROTOCOL.md."""
    data = data[:256]
    if port == ECHO:
        good = len(data) == 16 and data[:4] == b"BFDe" and data[12:] == bytes(4)
        return 1 if good and data[4:8] == bytes((0, 0, 0, 1)) else None
    if len(data) < 4 or data[0] >> 5 != 1:
        return None
    bits, mult, length = data[1:4]
    if length < (26 if bits & 0x04 else 24) or length > len(data) or mult == 0:
        return None
    my, your = int.from_bytes(data[4:8], "big"), int.from_bytes(data[8:12], "big")
    if my == 0 or port == SBFD:
        return None
    if bits & 0x01:
        return 30 if (port, my, your, source) == (SINGLE, 77, 0, OTHER) else None
    if your:
        discr = {SINGLE: 1, MULTI: 2, ANSWER: 5}[port]
        return discr if your == discr else None
    return None if bits >> 6 in (2, 3) else {(SINGLE, PEER): 1, (MULTI, OTHER): 2}.get((port, source))


class Traffic:
    """What was sent to a serving program, and in which order, by the ports of its links."""

    def __init__(self, run):
        self.run, self.log, self.sockets, self.processors = run, {port: [] for port in LINK_PORTS}, {}, os.sched_getaffinity(0)
        os.sched_setaffinity(0, {min(self.processors)})

    def socket(self, source, port=0):
        if (source, port) not in self.sockets:
            made = socket.socket(socket.AF_INET, socket.SOCK_DGRAM)
            made.bind((source, port))
            made.setsockopt(socket.IPPROTO_IP, socket.IP_TTL, 255)
            made.setblocking(False)
            self.sockets[source, port] = made
        return self.sockets[source, port]

    def send(self, port, data, source, sport=0, own=False):
        self.socket(source, sport).sendto(data, (LOCAL, port))
        self.log[port].append((data, source, own))

    def close(self):
        os.sched_setaffinity(0, self.processors)
        for made in self.sockets.values():
            made.close()

    def queues(self):
        """For each port of a link the bytes that wait in its socket, and the packets that its buffer couldn't hold."""
        found = {}
        for line in Path("/proc/net/udp").read_text().splitlines()[1:]:
            fields = line.split()
            address, port = fields[1].split(":")
            if address == "0100007F" and int(port, 16) in self.log:
                found[int(port, 16)] = int(fields[4].split(":")[1], 16), int(fields[-1])
        return found

    def wait(self, most, beat):
        """Waits until no more bytes than `most` wait in any socket."""
        end = time.monotonic() + 20
        while any(queued > most for queued, _ in self.queues().values()):
            if time.monotonic() > end or self.run.process.poll() is not None:
                raise Wrong(f"a link doesn't hear any more: {self.queues()}")
            time.sleep(0.001)
            beat()

    def lost(self):
        return sum(lost for _, lost in self.queues().values())

    def wanted(self, port, discr, until=None):
        """What the journal has to have of this port and session, in order: its words, and whether the peer sent it."""
        rows = []
        for data, source, own in self.log[port][:until]:
            if named(port, data, source) == discr:
                said = ("back", "1", str(int.from_bytes(data[8:12], "big"))) if port == ECHO else \
                    ("rx", WORDS[port], "1", source, LOCAL, "255", data[:256].hex())
                rows.append((said, own))
        return rows


class Peer:
    """A peer of session 1 at 127.0.0.2, by RFC 5880 section 6.8.6: what it hears moves its state, and it answers P."""

    def __init__(self, traffic, mult=10, tx=200000, keys=True, pause=0.1):
        self.traffic, self.pause, self.keys, self.due = traffic, pause, keys, 0
        self.fields = {"mult": mult, "tx": tx, "rx": 300000, "my": 7}
        self.state, self.your, self.seq, self.hears = "Down", 0, 100, traffic.socket(PEER, SINGLE)

    def payload(self, bits="", **more):
        sealed = {"auth": 5, "secret": SECRET, "seq": self.seq} if self.keys else {}
        return packet.payload(bits, **{"state": self.state, "your": self.your} | self.fields | sealed | more)

    def send(self, bits=""):
        self.traffic.send(SINGLE, self.payload(bits), PEER, SINGLE, own=True)
        self.seq += 1

    def hear(self, data):
        said, self.your = packet.STATES[data[1] >> 6], int.from_bytes(data[4:8], "big")
        moves = {("Down", "Down"): "Init", ("Down", "Init"): "Up", ("Init", "Init"): "Up", ("Init", "Up"): "Up", ("Up", "Down"): "Down"}
        before, self.state = self.state, moves.get((self.state, said), self.state)
        if data[1] & 0x20:
            self.send("F")
        elif before != self.state:
            self.send()

    def beat(self):
        """Hears what came, and sends where it is time."""
        try:
            while True:
                data, (source, _) = self.hears.recvfrom(512)
                if source == LOCAL and len(data) >= 24:
                    self.hear(data)
        except BlockingIOError:
            pass
        if time.monotonic() >= self.due:
            self.send()
            self.due = time.monotonic() + self.pause

    def keep(self, seconds):
        """Keeps the session Up for so long."""
        end = time.monotonic() + seconds
        while time.monotonic() < end and self.traffic.run.process.poll() is None:
            self.beat()
            time.sleep(0.005)

    def come_up(self):
        end = time.monotonic() + 20
        while self.state != "Up":
            if time.monotonic() > end:
                raise Wrong("the session doesn't come Up")
            self.keep(0.02)
        self.keep(0.3)


class Hostile:
    """Draws datagrams, and sends them: to each port drawn bytes of every length from 0 to 300, valid packets in which one bit was
    turned, and what looks valid: the peer's packets once more, and packets, sealed or not, of whatever fields."""

    def __init__(self, traffic, peer, seed):
        self.traffic, self.peer, self.draw, self.sent = traffic, peer, random.Random(seed), 0

    def field(self):
        return self.draw.choice((0, 1, 2, 5, 7, 30, 40, 77, 900, self.draw.getrandbits(32)))

    def plain(self):
        """A valid packet without a section, or an echo packet, or one to a reflector."""
        draw = self.draw
        if draw.random() < 0.15:
            number = draw.getrandbits(draw.choice((3, 32)))
            return b"BFDe" + draw.choice((1, 1, 2, 9)).to_bytes(4, "big") + number.to_bytes(4, "big") + bytes(4)
        bits = "".join(draw.sample("PFCDM", draw.choice((0, 0, 1, 1, 2))))
        return packet.payload(bits, state=draw.choice(packet.STATES), my=self.field(), your=self.field(), mult=draw.choice((1, 3, 255)),
                              tx=draw.choice((0, 300000, 2**32 - 1)), rx=draw.choice((0, 300000, 2**32 - 1)), diag=draw.randrange(32))

    def sealed(self):
        """The peer's next packet, but with another key, type or number, or a section of the wrong form."""
        draw = self.draw
        wrong_length = draw.choice([length for length in range(256) if length not in (28, 52)])
        more = draw.choice(({"secret": b"another"}, {"auth": draw.choice((1, 2, 3, 4))}, {"key": draw.choice((4, 6))},
                            {"authlen": wrong_length}, {"length": wrong_length},
                            {"secret": b"", "seq": (self.peer.seq + draw.choice((-1, 0, 1, 2**31))) % 2**32}))
        return self.peer.payload(state=draw.choice(("Down", "AdminDown")), **more)

    def turned(self, data):
        """With one bit turned."""
        at = self.draw.randrange(8 * len(data))
        return data[:at // 8] + bytes([data[at // 8] ^ 1 << at % 8]) + data[at // 8 + 1:]

    def next(self, number):
        """The datagram of this number to a port."""
        draw, kind = self.draw, number % 3
        if kind == 0:
            return draw.randbytes(number // 3 % 301)
        if kind == 1:
            return self.turned(self.peer.payload() if draw.random() < 0.5 else self.plain())
        if draw.random() < 0.3:
            own = [data for data, _, own in self.traffic.log[SINGLE][-400:] if own]
            return draw.choice(own) if own else b""
        return self.sealed() if draw.random() < 0.5 else self.plain() + draw.randbytes(draw.choice((0, 0, 1, 230)))

    def stream(self, count, seconds):
        """So many datagrams to all five ports in turn, in so many seconds at least."""
        start = time.monotonic()
        for at in range(count):
            source = self.draw.choice((PEER, PEER, OTHER, NOBODY))
            self.traffic.send(LINK_PORTS[at % 5], self.next(at // 5), source)
            if at % 20 == 19:
                self.peer.beat()
                self.traffic.wait(MOST_QUEUED, self.peer.beat)
                while time.monotonic() < start + seconds * at / count:
                    self.peer.beat()
                    time.sleep(0.001)

    def close(self):
        """Empty datagrams, which are no entries, until the workers have made their turns."""
        end = time.monotonic() + 60
        while self.traffic.run.process.poll() is None:
            if time.monotonic() > end:
                raise Wrong("the program doesn't end")
            for _ in range(10):
                for port in LINK_PORTS:
                    self.traffic.send(port, b"", NOBODY)
            self.peer.beat()
            time.sleep(0.002)
