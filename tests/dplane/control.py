"""The control plane's side of FRR's data plane protocol, for tests: it listens, hands sessions over and reads what comes back."""
import ipaddress
import select
import socket
import struct
import time

ECHO_REQUEST, ECHO_REPLY, ADD, DELETE, STATE, REQUEST, COUNTERS = range(7)
MULTIHOP, DEMAND, C_BIT, ECHO, IPV6, PASSIVE, SHUTDOWN = (1 << bit for bit in range(7))
ADMIN_DOWN, DOWN, INIT, UP = range(4)


def message(kind, body, number=0, version=1, length=None):
    return struct.pack("!BBHHH", version, 0, kind, number, 8 + len(body) if length is None else length) + body


# The Detect Mult is great, so that no session goes down where the machine stands still.
def session(discr, peer, source=None, flags=0, tx=100000, rx=100000, mult=30, hold=0, ttl=0, ifindex=0, name="", kind=ADD):
    far = ipaddress.ip_address(peer)
    flags |= IPV6 if far.version == 6 else 0
    near = ipaddress.ip_address(source).packed if source else b""
    body = struct.pack("!I16s16sIIIIIIBBHI64s", flags, near, far.packed, discr, tx, rx, 0, 0, hold, ttl, mult, 0, ifindex, name.encode())
    return message(kind, body)


class Control:
    def __init__(self, path):
        self.listener = socket.socket(socket.AF_UNIX)
        self.listener.bind(str(path))
        path.chmod(0o777)
        self.listener.listen(8)
        self.connection, self.bytes, self.states = None, b"", {}

    def accept(self, seconds=10):
        """Takes the next connection, and reads the echo request with which it begins."""
        self.listener.settimeout(seconds)
        self.connection, self.bytes = self.listener.accept()[0], b""
        kind, number, body = self.read()
        assert (kind, number, len(body)) == (ECHO_REQUEST, 0, 16), (kind, number, body)

    def send(self, *messages):
        self.connection.sendall(b"".join(messages))

    def read(self, seconds=10):
        """The next message as type, id and body; None where none comes in time or the connection ends."""
        end = time.monotonic() + seconds
        while len(self.bytes) < 8 or len(self.bytes) < struct.unpack("!H", self.bytes[6:8])[0]:
            left = end - time.monotonic()
            if left <= 0 or not select.select([self.connection], [], [], left)[0]:
                return None
            got = self.connection.recv(65536)
            if not got:
                return None
            self.bytes += got
        version, zero, kind, number, length = struct.unpack("!BBHHH", self.bytes[:8])
        assert (version, zero) == (1, 0), self.bytes[:8]
        body, self.bytes = self.bytes[8:length], self.bytes[length:]
        return kind, number, body

    def awaits(self, discr, holds, what, seconds=10):
        """Reads messages until one is a change of this session's state of which it holds; returns all of the session till then."""
        seen, end = [], time.monotonic() + seconds
        while time.monotonic() < end:
            found = self.read(max(0.01, end - time.monotonic()))
            if found is None or found[0] != STATE:
                continue
            names = ("discr", "peer_discr", "flags", "tx", "rx", "echo_rx", "state", "diagnostic", "mult")
            state = dict(zip(names, struct.unpack("!IIIIIIBBBx", found[2])))
            if state["discr"] == discr:
                seen.append(state)
                if holds(state):
                    return seen
        raise AssertionError(f"not reported: {what}; reported: {seen}")

    def quiet(self, discr, seconds):
        """The states other than Up that come meanwhile."""
        found = []
        try:
            self.awaits(discr, lambda state: found.append(state["state"]), "", seconds)
        except AssertionError:
            pass
        return [state for state in found if state != UP]
