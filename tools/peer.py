"""A scripted BFD peer, over UDP sockets: what tools/probe plays to a daemon.

Left alone it follows the daemon's state, answers P with F, and sends its periodic packets, as RFC 5880 has it, but begins no Poll Sequence
by itself. Each of these can be turned off, and any packet can be sent between. Nothing here is proved.
"""
import hashlib
import random
import select
import socket
import struct
import time
from typing import NamedTuple

from rules import AUTH, FINAL, POLL
from texts import Complaint, packet_of

ADMIN_DOWN, DOWN, INIT, UP = range(4)
FIRST_PORT, LAST_PORT = 49152, 65535
IP_RECVTTL, PORT_TAKEN = 12, 98  # of Linux; Python's socket lacks the first
# By our state, what a received state makes of it (RFC 5880 section 6.8.6).
FOLLOWS = {(DOWN, "Down"): INIT, (DOWN, "Init"): UP, (INIT, "Init"): UP, (INIT, "Up"): UP, (INIT, "AdminDown"): DOWN,
           (UP, "Down"): DOWN, (UP, "AdminDown"): DOWN}


class Came(NamedTuple):
    """A packet of the daemon: when, its fields, its bytes, TTL and source port."""
    moment: float
    packet: object
    payload: bytes
    ttl: int
    source: int


class Keys(NamedTuple):
    """An Auth Type with a key."""
    kind: int
    number: int
    secret: bytes

    def size(self):
        return 16 if self.kind in (2, 3) else 20


def control(fields, keys=None):
    """The bytes of a control packet; `fields` may override all that is usual. With `keys` it has a section, sealed."""
    given = {"version": 1, "diag": 0, "state": DOWN, "flags": 0, "mult": 3, "length": None, "my": 1, "your": 0, "tx": 100000,
             "rx": 100000, "echo": 0, "seq": 0, "digest": None, "kind": None, "key": None, "authlen": None} | fields
    section = b""
    if keys:
        kind, number = given["kind"] or keys.kind, keys.number if given["key"] is None else given["key"]
        rest = keys.secret if keys.kind == 1 else struct.pack(">xI", given["seq"] % 2**32) + keys.secret.ljust(keys.size(), b"\0")
        section = bytes([kind, len(rest) + 3 if given["authlen"] is None else given["authlen"], number]) + rest
        given["flags"] |= AUTH
    length = 24 + len(section) if given["length"] is None else given["length"]
    text = struct.pack(">BBBBIIIII", given["version"] << 5 | given["diag"], given["state"] << 6 | given["flags"], given["mult"], length,
                       given["my"], given["your"], given["tx"], given["rx"], given["echo"]) + section
    if not keys or keys.kind == 1:
        return text[:-1] + b"!" if given["digest"] and keys else text
    digest = given["digest"] or (hashlib.md5 if keys.size() == 16 else hashlib.sha1)(text).digest()
    return text[:32] + digest + text[32 + keys.size():]


class Peer:
    """The peer. Its variables are what its packets say."""

    def __init__(self, address, local, interface, multihop, keys):
        self.address, self.port, self.keys, self.multihop = address, 4784 if multihop else 3784, keys, multihop
        self.family = socket.AF_INET6 if ":" in address else socket.AF_INET
        self.out, self.into = self.sockets(local, interface)
        self.state, self.my, self.your, self.mult, self.tx, self.rx, self.flags, self.diag = DOWN, 0, 0, 3, 100000, 100000, 0, 0
        self.seq = random.randrange(1, 2**31)
        self.follows = self.sends = self.answers = True
        self.came, self.next, self.last_sent = [], 0.0, 0.0
        self.fresh()

    def sockets(self, local, interface):
        """The one that sends, from a port that RFC 5881 section 4 allows, and the one that hears."""
        out, into, looks = (socket.socket(self.family, socket.SOCK_DGRAM) for _ in range(3))
        try:
            if not local:
                looks.connect((self.address, self.port))
                local = looks.getsockname()[0]
            for one in (out, into):
                if interface:
                    one.setsockopt(socket.SOL_SOCKET, socket.SO_BINDTODEVICE, interface.encode())
            for port in random.sample(range(FIRST_PORT, LAST_PORT + 1), 20):
                try:
                    out.bind((local, port))
                    break
                except OSError as fault:
                    if fault.errno != PORT_TAKEN:
                        raise
            into.bind((local, self.port))
            if self.family == socket.AF_INET:
                into.setsockopt(socket.IPPROTO_IP, IP_RECVTTL, 1)
            else:
                into.setsockopt(socket.IPPROTO_IPV6, socket.IPV6_RECVHOPLIMIT, 1)
        except OSError as fault:
            raise Complaint(f"port {self.port} of {local or 'this machine'} can't be opened: {fault.strerror}") from None
        return out, into

    # Sending.

    def fresh(self):
        """Another My Discriminator, as after a restart."""
        self.my, self.your, self.state = random.randrange(1, 2**32), 0, DOWN

    def packet(self, **given):
        """The bytes of the next packet, with some fields of its own. A sequence number is used up where none is given."""
        if self.keys and "seq" not in given:
            self.seq = (self.seq + 1) % 2**32
        tx = self.tx if given.get("state", self.state) == UP else max(self.tx, 1000000)  # (RFC 5880 section 6.8.3)
        fields = {"state": self.state, "my": self.my, "your": self.your, "mult": self.mult, "tx": tx, "rx": self.rx,
                  "flags": self.flags, "diag": self.diag, "seq": self.seq} | given
        return control(fields, None if given.get("plain") else self.keys)

    def send(self, payload=None, ttl=255, port=None):
        payload = self.packet() if payload is None else payload
        option = (socket.IPPROTO_IPV6, socket.IPV6_UNICAST_HOPS) if self.family == socket.AF_INET6 else (socket.IPPROTO_IP, socket.IP_TTL)
        self.out.setsockopt(*option, ttl)
        try:
            self.out.sendto(payload, (self.address, port or self.port))
        except ConnectionRefusedError:
            pass  # (nobody hears there now; that is for the probe to notice)
        except OSError as fault:
            raise Complaint(f"nothing can be sent to {self.address}: {fault.strerror}") from None
        self.last_sent = time.monotonic()

    def interval(self):
        """The own transmit interval in seconds, jittered (RFC 5880 section 6.8.7)."""
        theirs = self.came[-1].packet.rx if self.came and self.your else 0
        least = self.tx if self.state == UP else max(self.tx, 300000)
        return max(least, theirs) / 1e6 * random.uniform(0.76, 0.88)

    # Hearing.

    def run(self, seconds, until=None):
        """Plays on for so long, or until a packet of the daemon fulfils a condition; answers that packet or None."""
        end = time.monotonic() + seconds
        while (now := time.monotonic()) < end:
            if self.sends and now >= self.next:
                self.send()
                self.next = now + self.interval()
            wait = min(end, self.next if self.sends else end) - now
            if select.select([self.into], [], [], max(wait, 0))[0]:
                came = self.hear()
                if came and until and until(came):
                    return came
        return None

    def hear(self):
        payload, ancillary, _, sender = self.into.recvmsg(512, 64)
        packet = packet_of(payload)
        if sender[0].split("%")[0] != self.address.split("%")[0] or packet is None:
            return None
        ttl = next((int.from_bytes(data[:4], "little") for _, kind, data in ancillary), None)
        came = Came(time.monotonic(), packet, payload, ttl, sender[1])
        self.came.append(came)
        self.your = packet.my
        if self.follows:
            self.state = FOLLOWS.get((self.state, packet.state), self.state)
            self.next = min(self.next, self.last_sent + self.interval())  # (it may be shorter now)
        if packet.has("P") and self.answers:
            self.send(self.packet(flags=self.flags & ~POLL | FINAL))
        return came

    def settle(self, seconds=8):
        """Brings the session Up as a correct peer, and waits till polls are over; answers whether it came Up."""
        self.follows = self.sends = self.answers = True
        self.next = 0.0
        self.mult, self.tx, self.rx, self.flags, self.diag = 3, 100000, 100000, 0, 0
        if self.state == ADMIN_DOWN:
            self.state = DOWN
        if not self.run(seconds, lambda came: came.packet.state == "Up" and self.state == UP and came.packet.your == self.my):
            return False
        self.run(seconds, lambda came: came.packet.state == "Up" and not came.packet.has("P") and not came.packet.has("F"))
        return self.state == UP

    def down(self):
        """Takes the session down and leaves it there: the peer says AdminDown, and then nothing but F, in AdminDown too."""
        self.follows, self.sends, self.answers, self.state, self.diag = False, True, True, ADMIN_DOWN, 7
        self.next = 0.0
        self.run(4, lambda came: came.packet.state == "Down")
        self.sends = False
        self.run(1.5, lambda came: came.packet.state == "Down")  # (a daemon may have another discriminator now)
        self.run(0.1)

    def detection(self):
        """The Detection Time that the daemon has, in seconds, by what both sides announce (RFC 5880 section 6.8.4)."""
        return self.mult * max(self.tx, self.came[-1].packet.rx) / 1e6

    def since(self, start):
        return [came for came in self.came if came.moment >= start]

