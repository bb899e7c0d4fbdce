"""The report that a busy script must give: its rules once more in plain Python, and slowly.

It knows the lines `p2p`, `rx` and `tick`, on the ports single and multi, without authentication, commands, questions, demand
mode on this side and the Echo function: what examples/busy writes. Each rule is that of docs/PROTOCOL.md and of the section of
RFC 5880 beside it, and no line of the proved program was taken over. It gave the same report, byte for byte, as a model of the
whole protocol in Python that stands outside this repository.
"""
NO_POLL, WANTED, RUNNING = "no poll is on", "a poll is wanted", "a poll runs"
ADMIN_DOWN, DOWN, INIT, UP = range(4)
NAMES = ["AdminDown", "Down", "Init", "Up"]
POLL, FINAL, AUTH, DEMAND, MULTIPOINT = 0x20, 0x10, 0x04, 0x02, 0x01
NEVER = 2**64

# Section 6.8.6: what a received state does in a state, as the state and the diagnostic after it; None leaves the diagnostic.
RECEIVED = {
    (DOWN, DOWN): (INIT, None), (DOWN, INIT): (UP, None),
    (INIT, INIT): (UP, None), (INIT, UP): (UP, None), (INIT, ADMIN_DOWN): (DOWN, 3),
    (UP, DOWN): (DOWN, 3), (UP, ADMIN_DOWN): (DOWN, 3),
}


class Packet:
    """The fields of a payload of 24 bytes and more (section 4.1)."""

    def __init__(self, payload):
        self.state, self.flags, self.mult = payload[1] >> 6, payload[1] & 0x3F, payload[2]
        self.my, self.your, self.min_tx, self.min_rx = (int.from_bytes(payload[at:at + 4], "big") for at in (4, 8, 12, 16))


class Session:
    def __init__(self, discr, hops, iface, local, remote, mode, tx, rx, mult, echo, seed):
        """Section 6.8.1: what a session knows at the start."""
        assert echo == "0"
        self.discr, self.hops, self.active = int(discr), hops, mode == "active"
        self.addresses = (hops, iface, local, remote) if hops == "single" else (hops, local, remote)
        self.tx, self.rx, self.mult, self.j = int(tx), int(rx), int(mult), int(seed)
        self.state, self.diag, self.poll = DOWN, 0, NO_POLL
        self.peer_state, self.peer, self.peer_tx, self.peer_rx, self.peer_mult, self.peer_demand = DOWN, 0, 0, 1, 0, False
        self.used_tx = self.advertised()
        self.heard, self.sent, self.last, self.send_due = None, 0, 0, None
        if self.may_send():
            self.draw()

    def advertised(self):
        """Section 6.8.3: at least a second in every state but Up."""
        return self.tx if self.state == UP else max(self.tx, 1000000)

    def interval(self):
        """Section 6.8.7."""
        return max(self.used_tx, self.peer_rx)

    def may_send(self):
        """Sections 6.1, 6.6 and 6.8.7."""
        demand_there = self.peer_demand and self.state == self.peer_state == UP
        return (self.peer_rx != 0 and (self.active or self.peer != 0)
                and (not demand_there or self.poll != NO_POLL))

    def deadline(self):
        """Section 6.8.4, without demand mode on this side."""
        return NEVER if self.heard is None else self.heard + self.peer_mult * max(self.rx, self.peer_tx)

    def draw(self):
        """Section 6.8.7: the tick of the next packet, from three quarters of the interval to all of it, or nine tenths."""
        first = -(-(self.sent + -(-3 * self.interval() // 4)) // 1000)
        last = (self.sent + (9 * self.interval() // 10 if self.mult == 1 else self.interval())) // 1000
        self.send_due = first + self.j % (last - first + 1)
        self.j = (1664525 * self.j + 1013904223) % 2**32

    def due(self):
        """The first tick at which something is to be done."""
        return min(NEVER if self.send_due is None else self.send_due, -(-self.deadline() // 1000))

    def renew(self):
        """Section 6.8.3: in Up a longer interval waits for the end of the poll."""
        waits = self.state == UP and self.poll != NO_POLL
        self.used_tx = min(self.used_tx, self.advertised()) if waits else self.advertised()

    def enter(self, state, diag, out):
        if state != self.state:
            out.append(f"state {self.discr} {NAMES[self.state]} {NAMES[state]} {diag}")
        before = self.advertised()
        self.state, self.diag = state, diag
        if self.advertised() != before:
            self.poll = WANTED
        self.renew()

    def send(self, flags, out):
        """Section 6.8.7."""
        words = (self.discr, self.peer, self.advertised(), self.rx, 0)
        head = bytes([0x20 | self.diag, self.state << 6 | flags, self.mult, 24])
        out.append(f"tx {self.discr} " + (head + b"".join(word.to_bytes(4, "big") for word in words)).hex())

    def event(self, limit, now, packet, out):
        """One event: what is due by `limit` is done, then the packet is taken, then what changed is sent."""
        announced, interval, base, final = (self.state, self.diag), self.interval(), False, False
        if self.deadline() <= limit:
            self.heard, self.peer = None, 0
            if self.state in (INIT, UP):
                self.enter(DOWN, 1, out)
        if self.send_due is not None and self.send_due <= limit // 1000 and self.may_send():
            self.send(0 if self.poll == NO_POLL else POLL, out)
            self.poll = RUNNING if self.poll == WANTED else self.poll
            self.sent, base, announced = now, True, (self.state, self.diag)
        if packet:
            final = self.take(packet, now, out)
        if announced != (self.state, self.diag) and not final and self.may_send():
            self.send(0, out)
            self.sent, base = now, True
        if not self.may_send():
            self.send_due = None
        elif base or self.send_due is None or self.interval() != interval:
            self.draw()

    def take(self, packet, now, out):
        """Section 6.8.6, of a packet that wasn't discarded; whether it was answered."""
        self.peer, self.peer_state, self.peer_demand = packet.my, packet.state, bool(packet.flags & DEMAND)
        self.peer_tx, self.peer_rx, self.peer_mult, self.heard = packet.min_tx, packet.min_rx, packet.mult, now
        if packet.flags & FINAL and self.poll == RUNNING:
            self.poll = NO_POLL
            self.renew()
        if (self.state, packet.state) in RECEIVED:
            state, diag = RECEIVED[self.state, packet.state]
            self.enter(state, self.diag if diag is None else diag, out)
        if packet.flags & POLL:
            self.send(FINAL, out)
        return bool(packet.flags & POLL)


def selected(sessions, port, iface, source, destination, payload):
    """The session that a packet is for and its fields, or the name of the first test that it fails (section 6.8.6)."""
    if len(payload) < 4:
        return "Short"
    if payload[0] >> 5 != 1:
        return "Version"
    if payload[3] < (26 if payload[1] & AUTH else 24):
        return "LengthMin"
    if payload[3] > len(payload):
        return "LengthOver"
    packet = Packet(payload)
    if packet.mult == 0:
        return "DetectMult"
    if packet.flags & MULTIPOINT and port == "multi":
        return "Multipoint"
    if packet.my == 0:
        return "MyDiscr"
    if packet.flags & MULTIPOINT:
        return "MultipointYour" if packet.your else "NoTail"
    if packet.your:
        session = sessions.get((port, packet.your))
        return (session, packet) if session else "YourUnknown"
    if packet.state in (INIT, UP):
        return "YourZeroState"
    session = sessions.get((port, iface, destination, source) if port == "single" else (port, destination, source))
    return (session, packet) if session else "NoSession"


def report_of(script):
    """The report of a packet file of those lines, as bytes."""
    lines = [line.split(" ") for line in script.decode("ascii").splitlines()]
    events = lines[lines.index(["run"]) + 1:lines.index(["end"])]
    table = sorted((Session(*line[1:]) for line in lines if line[0] == "p2p"), key=lambda session: session.discr)
    sessions = {key: session for session in table for key in (session.addresses, (session.hops, session.discr))}
    written, tick = [], 0
    for number, (word, moment, *rest) in enumerate(events, 1):
        out = []
        if word == "tick":
            tick = max(tick, int(moment))
            for session in table:
                if session.due() <= tick:
                    session.event(1000 * tick, max(1000 * tick, session.last), None, out)
        else:
            port, iface, source, destination, ttl, payload = rest
            found = selected(sessions, port, iface, source, destination, b"" if payload == "-" else bytes.fromhex(payload))
            if isinstance(found, tuple):
                session, packet = found
                fault = "Ttl" if port == "single" and ttl != "255" else "AuthUnexpected" if packet.flags & AUTH else None
                session.last = max(int(moment), 1000 * tick, session.last)
                session.event(session.last, session.last, None if fault else packet, out)
                found = fault
            if found:
                out.append(f"drop {found}")
        written += (f"{number} {line}" for line in out)
    counts = [sum(line.split(" ")[1] == kind for line in written) for kind in ("tx", "drop")]
    return "\n".join([*written, f"done {len(events)} {counts[0]} {counts[1]}", ""]).encode("ascii")
