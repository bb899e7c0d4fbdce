"""What a replay reports of each session in time: its states, packets, drops, polls and demand mode."""
from texts import ECHO, packet_of


class Lane:
    """One session. Moments are seconds; a span is (from, to)."""

    def __init__(self, session):
        self.session = session
        self.states = [[0.0, None, "Up" if session.kind == "head" else "Down"]]  # each from its moment until the next one's
        self.came, self.sent, self.echoes, self.drops, self.refusals = [], [], ([], []), [], []
        self.polls, self.demand = Spans(), Spans()
        self.changes = []                                 # (moment, state, diagnostic) of each change

    def change(self, moment, state, diag):
        self.states[-1][1] = moment
        self.states.append([moment, None, state])
        self.changes.append((moment, state, diag))

    def hear(self, moment, payload, reason):
        """A packet that came; `reason` is why it was dropped, or None. F of one that passed ends a poll."""
        packet = packet_of(payload)
        (self.echoes[0] if payload.startswith(ECHO) else self.came).append(moment)
        if reason:
            self.drops.append((moment, reason))
        elif packet and packet.has("F"):
            self.polls.end(moment)

    def send(self, moment, payload):
        """A packet of this side. P begins a poll, which the first packet of a head without P ends. D says whether demand mode
        is active, where it isn't in every packet."""
        if payload.startswith(ECHO):
            self.echoes[1].append(moment)
            return
        self.sent.append(moment)
        packet = packet_of(payload)
        if packet and packet.has("P"):
            self.polls.begin(moment)
        elif self.session.kind == "head":
            self.polls.end(moment)
        if packet and packet.has("D") and self.session.kind in ("single", "multi"):
            self.demand.begin(moment)
        else:
            self.demand.end(moment)

    def first_change(self):
        return self.changes[0][0] if self.changes else float("inf")

    def close(self, moment):
        self.states[-1][1] = moment
        self.polls.end(moment)
        self.demand.end(moment)


class Spans(list):
    """Spans of which the last may be open."""

    def __init__(self):
        super().__init__()
        self.since = None

    def begin(self, moment):
        self.since = moment if self.since is None else self.since

    def end(self, moment):
        if self.since is not None:
            self.append((self.since, moment))
        self.since = None


class Lanes:
    """All sessions, those that changed first in front, and the drops of no session."""

    def __init__(self, script, happenings):
        self.auth = script.auth
        self.lanes = {discr: Lane(session) for discr, session in sorted(script.sessions.items())}
        self.strays = []
        self.end, self.events, self.sent, self.dropped = 0.0, 0, 0, 0
        for event, lines in happenings:
            self.take(script, event, lines)
        self.end += (self.end or 1.0) * 0.02  # room for what the last event left
        for lane in self.lanes.values():
            lane.close(self.end)
        self.lanes = dict(sorted(self.lanes.items(), key=lambda pair: pair[1].first_change()))

    def choose(self, discrs):
        """Leaves the lanes of these sessions alone; the drops of no session are of none of them."""
        if len(discrs) < len(self.lanes):
            self.lanes, self.strays = {discr: lane for discr, lane in self.lanes.items() if discr in discrs}, []

    def take(self, script, event, lines):
        """An event, and what the report has of it: what the sessions did, and then what came of a packet."""
        moment = event.moment / 1e6
        self.end, self.events = max(self.end, moment), self.events + 1
        for line in lines:
            self.sent += line.word == "tx"
            self.dropped += line.word == "drop"
            if line.word == "state":
                self.lanes[int(line.words[0])].change(moment, line.words[2], int(line.words[3]))
            elif line.word == "tx" and int(line.words[0]) in self.lanes:  # a reflector has no lane
                self.lanes[int(line.words[0])].send(moment, bytes.fromhex(line.words[1]))
            elif line.word == "refuse" and event.discr in self.lanes:
                self.lanes[event.discr].refusals.append((moment, line.words[0]))
        if event.arrival:
            reason = next((line.words[0] for line in lines if line.word == "drop"), None)
            lane = self.lanes.get(script.session_of(event))
            if lane:
                lane.hear(moment, event.arrival.payload, reason)
            elif reason:
                self.strays.append((moment, reason))
