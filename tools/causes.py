"""Why each session's state changed: from a packet file, its report, and the program's answers to the questions put in (asked.py).

A `Course` goes through the events of one session. What it says of intervals and Detection Times are the program's answers; what came
and when is the packet file's. Nothing here is proved.
"""
import collections
from typing import NamedTuple

from lanes import Spans
from reasons import counted, diagnostic, drops_in_words, seconds, span
from texts import ECHO, Packet, packet_of

COMMANDS = {"disable": "RFC 5880 section 6.8.16", "enable": "RFC 5880 section 6.8.16", "reset": "RFC 5880 section 6.8.15"}


class Heard(NamedTuple):
    """A packet that this session took, and the event that brought it."""
    number: int
    moment: int
    packet: Packet
    echo_rx: int  # Required Min Echo RX


class Change(NamedTuple):
    """A change of state: when, from the change before, why, with the facts and the sentences that say them."""
    moment: int
    since: int
    event: int
    old: str
    new: str
    diag: int
    cause: str
    facts: dict
    sentences: list


class Course:
    """One session's events, in their order."""

    def __init__(self, session, part):
        self.session, self.part = session, part
        self.state, self.changed = "Up" if session.kind == "head" else "Down", 0
        self.changes, self.times = [], collections.Counter()
        self.heard = self.own = None                 # the last packet that was taken, and the last that was sent
        self.came, self.sent = [], []                # (moment, event, packet)
        self.drops, self.refusals = [], []           # (moment, event, name)
        self.echoes, self.echo_back = {}, None       # outstanding ones by number; (moment, number) of the last that came back
        self.own_polls, self.peer_polls = Spans(), Spans()
        self.demand_end = 0
        self.end = 0

    # What happens, event by event.

    def take(self, number, event, lines):
        """An event of this session, or a tick, with the report's lines of this session."""
        self.end = max(self.end, event.moment)
        packet = packet_of(event.arrival.payload) if event.arrival and event.arrival.port != "echo" else None
        reason = next((line.words[0] for line in lines if line.word == "drop"), None)
        for line in lines:
            if line.word == "state":
                self.change(number, event, line, None if reason else packet)
            elif line.word == "tx":
                self.send(number, event.moment, bytes.fromhex(line.words[1]))
            elif line.word == "refuse":
                self.refusals.append((event.moment, number, line.words[0]))
        if event.arrival:
            self.hear(number, event, packet, reason)

    def hear(self, number, event, packet, reason):
        if reason:
            self.drops.append((event.moment, number, reason))
        if event.arrival.port == "echo" and not reason:
            back = int.from_bytes(event.arrival.payload[8:12], "big")
            self.echo_back = (event.moment, back)
            self.echoes = {at: moment for at, moment in self.echoes.items() if at > back}
        elif packet and reason in (None, "AdminDown"):
            self.heard = Heard(number, event.moment, packet, int.from_bytes(event.arrival.payload[20:24], "big"))
            self.came.append((event.moment, number, packet))
            if packet.has("F"):
                self.own_polls.end(event.moment)
            if packet.has("P"):
                self.peer_polls.begin(event.moment)
            else:
                self.peer_polls.end(event.moment)

    def send(self, number, moment, payload):
        if payload.startswith(ECHO):
            self.echoes[int.from_bytes(payload[8:12], "big")] = moment
            return
        packet = packet_of(payload)
        if self.own and self.own.has("D") and not packet.has("D"):
            self.demand_end = moment
        self.own = packet
        self.sent.append((moment, number, packet))
        if packet.has("P"):
            self.own_polls.begin(moment)
        elif self.session.kind == "head":
            self.own_polls.end(moment)

    def change(self, number, event, line, packet):
        old, new, diag = line.words[1], line.words[2], int(line.words[3])
        cause, facts, sentences = self.why(number, event, old, new, diag, packet)
        self.changes.append(Change(event.moment, event.moment - self.changed, number, old, new, diag, cause, facts, sentences))
        self.times[old] += event.moment - self.changed
        self.state, self.changed = new, event.moment
        if new != "Up":
            self.echoes, self.echo_back = {}, None

    def close(self, moment):
        self.end = max(self.end, moment)
        self.times[self.state] += self.end - self.changed
        for polls in (self.own_polls, self.peer_polls):
            polls.end(self.end)

    # Why.

    def why(self, number, event, old, new, diag, packet):
        """The cause of a change, its facts and its sentences."""
        if event.word == "cmd" and (new == "AdminDown" or old == "AdminDown" or diag == 4 and event.words[3] == "reset"):
            return self.by_command(number, event)
        if new == "Down" and diag == 1:
            return self.by_expiry(number, event)
        if new == "Down" and diag == 2:
            return self.by_echo(event)
        if packet and new == "Down":
            return self.by_peer(number, event, packet)
        if packet:
            return self.by_handshake(number, event, old, new, packet)
        return "unknown", {}, [f"Event {number} (`{' '.join(event.words)[:60]}`) brought it."]

    def by_command(self, number, event):
        verb = event.words[3]
        facts = {"command": verb}
        return verb, facts, [f"The operator gave the command `{verb}` (event {number}; {COMMANDS.get(verb, 'RFC 5880')})."]

    def by_expiry(self, number, event):
        answer = self.part.before(self.session.discr, number)
        if not self.heard or not answer:
            return "expiry", {}, ["The Detection Time expired. How long it was is unknown: the packet file has no room for questions."]
        if self.own_polls.since is not None and self.own and self.own.has("D"):
            return self.by_unanswered_poll(event)
        packet, detect, last = self.heard.packet, answer.detect, max(self.heard.moment, self.demand_end)
        facts = {"last_packet": self.heard.moment, "last_packet_event": self.heard.number, "detection_time": detect,
                 "expired_at": last + detect, "late": event.moment - last - detect, "peer_discr": packet.my}
        sentences = [f"The Detection Time expired without a packet: the last one came at {seconds(self.heard.moment)} "
                     f"(event {self.heard.number}), {span(event.moment - self.heard.moment)} before."]
        mult = self.own.mult if self.session.kind == "sbfd" and self.own else packet.mult
        interval = detect // mult if mult else 0
        facts |= {"detect_mult": mult, "interval": interval}
        if self.session.kind == "sbfd":
            sentences.append(f"The Detection Time was {span(detect)}: the own Detect Mult {mult} times the transmit interval "
                             f"{span(interval)} (RFC 7880 section 7.3.1).")
        else:
            facts |= {"required_min_rx": answer.used_rx, "remote_min_tx": packet.tx}
            sentences.append(f"The Detection Time was {span(detect)}: the peer's Detect Mult {mult} times {span(interval)}, the greater "
                             f"of the own Required Min RX in use ({span(answer.used_rx)}) and the peer's Desired Min TX "
                             f"({span(packet.tx)}) (RFC 5880 section 6.8.4).")
        sentences.append(self.lateness(number, event, last + detect))
        if interval:
            facts["missed"] = (event.moment - self.heard.moment) // interval
            sentences.append(f"In that time the peer owed at least {counted(facts['missed'], 'packet')}, one each {span(interval)} "
                             "at the latest (RFC 5880 section 6.8.7).")
        return "expiry", facts, sentences + self.meanwhile(facts, self.heard.moment) + self.own_side(facts, self.heard.moment)

    def lateness(self, number, event, due):
        late = event.moment - due
        what = f"the tick at {seconds(event.moment)}" if event.word == "tick" else f"event {number} at {seconds(event.moment)}"
        if late <= 0:
            return f"It ended at {seconds(due)}, and {what} found it so immediately."
        return f"It ended at {seconds(due)}, and {what} found it so, {span(late)} late."

    def by_unanswered_poll(self, event):
        """With demand mode on, silence counts only while a Poll Sequence is on."""
        answer = self.part.before(self.session.discr, self.sent[-1][1] + 1)
        interval = max(answer.used_tx, self.heard.packet.rx)
        facts = {"poll_since": self.own_polls.since, "detect_mult": self.own.mult, "interval": interval,
                 "late": event.moment - self.own_polls.since - self.own.mult * interval}
        sentences = [f"A Poll Sequence in demand mode had no answer: its first packet went out at {seconds(self.own_polls.since)}, "
                     f"and no F came within the own Detect Mult {self.own.mult} times the transmit interval {span(interval)} "
                     f"(RFC 5880 sections 6.6 and 6.8.4)."]
        return "expiry", facts, sentences + self.meanwhile(facts, self.own_polls.since)

    def by_echo(self, event):
        lost = sorted(self.echoes.items())
        interval = min((later - sooner for (_, sooner), (_, later) in zip(lost, lost[1:])), default=0)
        facts = {"outstanding": [{"number": at, "sent": moment} for at, moment in lost]}
        sentences = [f"The Echo function failed (RFC 5880 section 6.8.5): {counted(len(lost), 'echo packet')} had not come back"
                     + "".join(f"{',' if at else ':'} number {number} sent at {seconds(moment)}"
                               for at, (number, moment) in enumerate(lost[:6])) + (", .." if len(lost) > 6 else "") + "."]
        if self.echo_back:
            facts["last_back"] = self.echo_back[0]
            sentences.append(f"The last one that came back was number {self.echo_back[1]}, at {seconds(self.echo_back[0])}, "
                             f"{span(event.moment - self.echo_back[0])} before.")
        else:
            sentences.append("None has come back since the Echo function began.")
        if interval and self.own:
            sentences.append(f"They go out each {span(interval)}, and Detect Mult {self.own.mult} of these may pass without one. "
                             "Control packets say nothing here: the peer's forwarding plane returns echo packets.")
        return "echo", facts, sentences + self.meanwhile(facts, self.changed)

    def by_peer(self, number, event, packet):
        answer = self.part.before(self.session.discr, number)
        known = answer.remote_discr if answer else 0
        restarted = bool(known) and self.session.kind in ("single", "multi") and packet.my != known
        facts = {"peer_state": packet.state, "peer_diag": packet.diag, "peer_discr": packet.my, "peer_discr_before": known,
                 "restarted": restarted}
        sentences = [f"The peer said {packet.state}, diagnostic {diagnostic(packet.diag)}, in the packet at {seconds(event.moment)} "
                     f"(event {number})."]
        if restarted:
            sentences.append(f"Its My Discriminator changed from {known} to {packet.my}: it restarted, or created the session again.")
        if not packet.your and self.session.kind in ("single", "multi"):
            facts["knows_us"] = False
            sentences.append("Its Your Discriminator is 0: it has heard nothing of this session yet, or has forgotten it.")
        if packet.diag == 1:
            sentences.append("So the peer heard nothing from this side for its own Detection Time.")
            sentences += self.own_side(facts, self.changed)
        elif packet.diag == 7 or packet.state == "AdminDown":
            sentences.append("So it was taken out of service there: nothing failed on the path.")
        elif packet.diag == 3 and not restarted:
            sentences.append("It repeats that this side signalled Down.")
        return "peer", facts, sentences + self.meanwhile(facts, self.heard.moment if self.heard else self.changed)

    def by_handshake(self, number, event, old, new, packet):
        facts = {"peer_state": packet.state, "peer_discr": packet.my}
        means = {("Down", "Down"): "it is there, and doesn't say yet that it has heard this side",
                 ("Down", "Init"): "it has heard this side", ("Init", "Init"): "it has heard this side",
                 ("Init", "Up"): "it has heard this side and is Up"}.get((old, packet.state), "it is Up")
        sentences = [f"The peer's packet at {seconds(event.moment)} (event {number}) says {packet.state}: {means} "
                     f"(RFC 5880 section 6.8.6)."]
        down = next((change for change in reversed(self.changes) if change.old == "Up"), None)
        if new == "Up" and down:
            facts["down_for"] = event.moment - down.moment
            sentences.append(f"The session had not been Up for {span(event.moment - down.moment)}.")
        answer = self.part.before(self.session.discr, number)
        if answer and answer.remote_discr and self.session.kind in ("single", "multi") and answer.remote_discr != packet.my:
            facts["restarted"] = True
            sentences.append(f"Its My Discriminator changed from {answer.remote_discr} to {packet.my}: it restarted.")
        return "handshake", facts, sentences + (self.meanwhile(facts, self.changed) if new == "Up" else [])

    def meanwhile(self, facts, since):
        """What was dropped since a moment."""
        counts = collections.Counter(reason for moment, _, reason in self.drops if moment >= since)
        if not counts:
            return []
        facts["dropped"] = dict(counts)
        return [f"Since {seconds(since)} {counted(sum(counts.values()), 'packet')} came and "
                f"{'was' if sum(counts.values()) == 1 else 'were'} dropped, which may be the reason: {drops_in_words(counts)}."]

    def own_side(self, facts, since):
        """What this side sent meanwhile."""
        own = [moment for moment, _, _ in self.sent if moment >= since]
        facts["sent"] = len(own)
        if not own:
            return [f"This side sent nothing from {seconds(since)} on."]
        return [f"This side sent {counted(len(own), 'packet')} from {seconds(since)} on, the last at {seconds(own[-1])}."]


def courses_of(part):
    """The course of each session of a packet file. A packet that was dropped before it named a session counts for the session with
    its addresses."""
    courses = {discr: Course(session, part) for discr, session in sorted(part.script.sessions.items())}
    ends, last = {}, 0
    for discr, session in part.script.sessions.items():
        ends.setdefault((session.remote, session.local), discr)
    for number, event, lines in part.happenings():
        last = max(last, event.moment)
        if event.word == "tick":
            by_session = {}
            for line in lines:
                by_session.setdefault(int(line.words[0]), []).append(line)
            for discr, own in by_session.items():
                if discr in courses:
                    courses[discr].take(number, event, own)
            continue
        discr = part.script.session_of(event)
        if discr in courses:
            courses[discr].take(number, event, lines)
        elif event.arrival and (event.arrival.src, event.arrival.dst) in ends:
            reasons = [line.words[0] for line in lines if line.word == "drop"]
            stray = courses[ends[event.arrival.src, event.arrival.dst]]
            stray.drops += [(event.moment, number, reason) for reason in reasons]
    for course in courses.values():
        course.close(last)
    return courses


def after(course, change):
    """What the first packet behind an expiry says of the peer: whether it restarted, and whether it had lost this side too."""
    if change.cause != "expiry" or "last_packet" not in change.facts or course.session.kind not in ("single", "multi"):
        return []
    came = next((row for row in course.came if row[1] > change.event or row[1] == change.event and row[0] == change.moment), None)
    if not came:
        return [f"No packet has come since, to the end of the file at {seconds(course.end)}."]
    moment, number, packet = came
    gap = span(moment - change.facts["last_packet"])
    first = f"The next packet came at {seconds(moment)} (event {number}), {gap} after the last one, " \
            f"and says {packet.state}, diagnostic {diagnostic(packet.diag)}"
    known = change.facts["peer_discr"]
    if packet.my != known:
        return [first + f", with another My Discriminator ({packet.my} after {known}): the peer restarted, or created the session again."]
    return [first + ". " + STILL_THERE.get((packet.state, packet.diag), STILL_THERE.get(packet.state, SAME + "."))]


SAME = "Its My Discriminator is the same, so the peer did not restart"
STILL_THERE = {
    "Up": SAME + ". It still had the session Up, so packets of this side reached it, and only its own were lost or not sent.",
    "Init": SAME + ". By Init it says that it has heard this side's Down, so packets of this side reach it.",
    ("Down", 1): SAME + ". It had lost this side as well, so both directions failed, or the peer stood still.",
    ("Init", 1): SAME + ". It had lost this side as well, so both directions failed, or the peer stood still.",
    ("Down", 3): SAME + ". It heard this side say Down, so packets of this side reached it, and only its own were lost or not sent.",
    "AdminDown": SAME + ". It was taken out of service meanwhile.",
}
