"""One end of a BFD session in a capture, and the rules that need what came before. rules.py has the table, tools/judge the whole, and
others.py the ends of seamless and multipoint BFD and the echo packets.

A rule of what an end did is certain, since what it heard has passed the capturing point, but where packets are missing in the capture. A
rule of what an end failed to do is certain of the local end alone: for the other, a packet may have been lost behind that point. So each
finding is `wrong` or `undecided`. Nothing here is proved.
"""
import collections

from reasons import DROPS, seconds, span
from rules import DEMAND, FINAL, OF_DROP, POLL
from texts import STATES, shown

ADMIN_DOWN, DOWN, INIT, UP = range(4)
RECENT = 64         # packets that are kept of each end
REACTION = 200000   # microseconds that an end may take to do what a packet asks for
SETTLED = 10**9     # microseconds after which values that were changed bind nothing any more
STILL_THERE = 5000000  # microseconds after its last packet for which a session surely has its discriminator
FEWEST_GAPS, LEAST_SPREAD = 50, 0.02  # of the rule on jitter


class End:
    """What one address sends to another on a kind of port."""

    def __init__(self, port, iface, src, dst, is_local):
        self.port, self.iface, self.src, self.dst, self.is_local = port, iface, src, dst, is_local
        self.peer = self.auth = None
        self.keyed = False
        self.discrs, self.epoch, self.rx_announced, self.cache = [], 0, 1000000, {}
        self.count = self.sections = 0                     # packets, and those with an authentication section
        self.judge = self.noted = None                     # `noted`: what the last packet that was read says
        self.yours = set()                                 # each Your Discriminator
        self.last_source = None                            # the last packet's source port
        self.waiting = []                                  # echo packets sent before its packets said Up
        self.reset()
        self.heard_at, self.holes = None, []               # the last packet's moment; between which moments packets are missing
        self.recent = collections.deque(maxlen=RECENT)     # (moment, number, state, drop)
        self.ratios = [0, 9.0, 0.0]                        # gaps as parts of the interval: count, least, most

    def reset(self):
        """What a restart of the end makes new."""
        self.last = self.number = self.base = None         # `base` is the moment of the last periodic packet
        self.gap = 0                                       # between the last two periodic packets
        self.values = []                                   # (since, Desired Min TX, Required Min RX, Detect Mult)
        self.polls = collections.deque(maxlen=RECENT)      # moments of its packets with P that have no answer
        self.poll_since = self.poll_packets = None
        self.unanswered_reported = self.changed_without = self.old_tx = None
        self.late_gaps, self.downs, self.silence_reported, self.forgot_reported = 0, None, None, None
        self.zero, self.demand = [0, None], [0, None]      # packets in a row with Required Min RX 0, with D, and since when
        self.echoes = []                                   # (since, Required Min Echo RX)
        self.seq = self.seq_at = None
        self.born = None                                   # the first packet's moment

    # What is known before the packets are judged.

    def note(self, said):
        """A packet, as it is read: the discriminators that this end has, and its Auth Type."""
        self.yours.add(said.your)
        if said.is_whole() and said.my and (not self.discrs or self.discrs[-1] != said.my):
            self.epoch += bool(self.discrs)
            self.discrs.append(said.my)
        self.auth = self.auth or said.auth
        if said.state == UP and said.rx:
            self.rx_announced = said.rx

    def sought(self, said):
        """The discriminator of the session that a packet of this end goes to."""
        return self.peer.discrs[said.epoch] if self.peer and said.epoch < len(self.peer.discrs) else said.your

    # Packet by packet.

    def faults(self, number, moment, said, drop, of_drop=OF_DROP):
        """What is wrong with a packet by itself, and by the test that drops it."""
        for rule, what in said.faults:
            if rule != "source-port" or self.last_source != said.source:  # (which all packets of a session have)
                self.find(rule, number, moment, what)
        self.last_source = said.source
        if drop in of_drop and not any(rule == of_drop[drop] for rule, _ in said.faults):
            self.find(of_drop[drop], number, moment, f"a receiver drops it by {drop}: {DROPS[drop][0]}")

    def take(self, number, moment, said, drop, payload):
        self.faults(number, moment, said, drop)
        if not said.is_whole() or drop not in (None, "YourUnknown", "AuthSeq"):
            self.recent.append((moment, number, said.state, drop or "Version"))
            return
        if said.your and self.judge.heads and self.answers_head(number, moment, said):
            return
        if self.peer and said.your and self.peer.discrs and said.your != self.peer.discrs[0]:
            self.names_peer(number, moment, said)
        self.number = number
        if said.is_numbered and not self.sequence(moment, said, int.from_bytes(payload[28:32], "big")):
            return
        self.follow(moment, said, drop)

    def follow(self, moment, said, drop):
        """A packet that belongs to the session, behind those before it."""
        before = self.last
        if before is not None and said.my != before.my:
            self.reset_for(moment)
            before = None
        if before is not None:
            if said.source != before.source:
                self.find("same-source-port", self.number, moment, f"source port {said.source} after {before.source}")
            if said.contents != before.contents:
                self.changed(moment, said, before)
            elif not said.flags & FINAL:
                self.periodic(moment, said)
        else:
            self.begin(moment, said)
        if said.flags & FINAL:
            self.answered(moment)
        self.polled(moment, said)
        if self.peer and self.peer.heard_at is not None:
            self.lives(moment, said)
        self.remember(moment, said, drop)
        if self.waiting:
            for echoes, *sent in self.waiting:
                echoes.settle(self, *sent)
            self.waiting = []

    def begin(self, moment, said):
        """The first packet of the end, or of what it is after a restart."""
        self.values, self.born = [(moment, said.tx, said.rx, said.mult)], moment
        others = self.judge.owners.setdefault((self.src, said.my), [])
        for other in others:
            if other is not self and other.last and other.last.my == said.my and moment - other.recent[-1][0] < STILL_THERE:
                self.find("unique-discriminator", self.number, moment, f"My Discriminator {said.my}, which the session with "
                          f"{shown(other.dst)} has too", other.iface == self.iface)
        others += [self] * (self not in others)

    def reset_for(self, moment):
        number = self.number
        self.reset()
        self.number = number

    def remember(self, moment, said, drop):
        self.recent.append((moment, self.number, said.state, drop))
        if said.contents == (self.last.contents if self.last else None) or self.base is None:
            if not said.flags & FINAL:
                self.base = moment
        if len(self.values) > 1 and moment - self.values[-1][0] > SETTLED:
            self.values = self.values[-1:]
        self.last = said
        if drop is None:
            self.heard_at = moment
            for row, holds in ((self.zero, said.rx == 0), (self.demand, said.flags & DEMAND and said.state == UP)):
                row[0] = row[0] + 1 if holds else 0
                row[1] = moment if row[0] == 1 else row[1]
            if not self.echoes or self.echoes[-1][1] != said.echo:
                self.echoes = self.echoes[-7:] + [(moment, said.echo)]

    def find(self, rule, number, moment, what, certain=True, since=None):
        """A finding. With `since`, one that a packet would clear which the capture lacks, of what was sent from then on."""
        self.judge.find(rule, self, number, moment, what, certain, since)

    def lacks(self, since, until):
        """Whether packets of this end are missing between two moments. Before its first packet any may be."""
        return self.born is None or any(start < until and end > since for start, end in self.holes)

    def hole(self, start, end, what):
        """Packets of this end are missing between two moments."""
        self.holes.append((start, end))
        self.judge.hole(self, self.number, end, what)

    # Intervals.

    def span_of(self, since):
        """The least and greatest Desired Min TX, Required Min RX and Detect Mult that this end announced from a moment on."""
        values = self.values
        if len(values) == 1:
            return values[0][1], values[0][1], values[0][2], values[0][2], values[0][3]
        start = max((at for at, row in enumerate(values) if row[0] <= since), default=0)
        rows = values[start:]
        txs, rxs = [row[1] for row in rows], [row[2] for row in rows]
        return min(txs), max(txs), min(rxs), max(rxs), max(row[3] for row in rows)

    def detection(self, since):
        """The least and the greatest Detection Time that this end may have (RFC 5880 section 6.8.4)."""
        least_tx, most_tx, _, _, mult = self.peer.span_of(since)
        _, _, least_rx, most_rx, _ = self.span_of(since)
        return min(row[3] for row in self.peer.values) * max(least_tx, least_rx), mult * max(most_tx, most_rx)

    def interval(self, since, said):
        """The least and the greatest transmit interval from a moment on (RFC 5880 section 6.8.7)."""
        least_tx, most_tx, _, _, _ = self.span_of(since)
        if not self.peer or not self.peer.values or not said.your:
            return least_tx, most_tx
        _, _, least_rx, most_rx, _ = self.peer.span_of(since)
        return max(least_tx, least_rx), max(most_tx, most_rx)

    def periodic(self, moment, said):
        """A packet that says what the last one said: it comes by the timer."""
        gap, slack = moment - self.base if self.base is not None else None, self.judge.slack
        if gap is None:
            return
        interval = self.interval(self.base - 2 * gap, said)
        least, most = interval[0] * 3 // 4, interval[1] * 9 // 10 if said.mult == 1 else interval[1]
        late = max(self.gap - interval[1] * 9 // 10, 0)  # the packet before came late, so this one may seem early
        self.gap = gap
        if gap < least - min(slack, least // 20) - late:
            self.find("too-early", self.number, moment, f"{span(gap)} after the periodic packet before it; allowed: {span(least)} to "
                      f"{span(most)}")
        if said.state == UP:
            self.punctual(moment, said, gap, most, interval)
        self.unwanted(moment, said)

    def punctual(self, moment, said, gap, most, interval):
        """How late a packet of a session that is Up is."""
        slack, peer = self.judge.slack, self.peer
        since_any = moment - self.recent[-1][0] if self.recent else gap
        if self.old_tx is not None:
            self.before_its_poll(moment, since_any)
        elif since_any > most + slack and not (peer and (peer.zero[0] or peer.demand[0])):
            if not self.is_local:
                self.hole(moment - since_any, moment, f"{span(since_any)} without a packet, where {span(most)} are allowed")
            self.find("too-late", self.number, moment, f"{span(since_any)} after the packet before it; allowed: {span(most)}",
                      self.is_local)
        if interval[0] == interval[1] and 0 < gap * 2 < interval[0] * 3:
            ratio, row = gap / interval[0], self.ratios
            row[0] += 1
            row[1], row[2] = min(row[1], ratio), max(row[2], ratio)

    def before_its_poll(self, moment, gap):
        """While a longer Desired Min TX waits for F, the old one is used."""
        peer_rx = self.peer.span_of(moment - 2 * gap)[3] if self.peer and self.peer.values else 0
        allowed = max(self.old_tx, peer_rx)
        if gap > allowed + self.judge.slack:
            self.late_gaps += 1
            self.find("interval-before-poll", self.number, moment, f"{span(gap)} after the packet before it, and no F has come since "
                      f"Desired Min TX rose; allowed: {span(allowed)}", self.is_local or self.late_gaps > 1)

    def unwanted(self, moment, said):
        """Periodic packets to a peer that asks for none."""
        peer = self.peer
        if not peer or not peer.last or peer.heard_at is None:
            return
        if peer.zero[0] and (self.is_local or peer.zero[0] >= peer.last.mult) and moment > peer.zero[1] + REACTION:
            self.find("min-rx-zero", self.number, moment, f"a periodic packet, and the peer's Required Min RX is 0 since "
                      f"{seconds(peer.zero[1])}; allowed: none")
        if (peer.demand[0] and said.state == UP and not said.flags & POLL and (self.is_local or peer.demand[0] >= peer.last.mult)
                and moment > peer.demand[1] + REACTION):
            self.find("demand", self.number, moment, f"a periodic packet without P, and the peer has D set since "
                      f"{seconds(peer.demand[1])}; allowed: none")

    # Changes of what is announced.

    def changed(self, moment, said, before):
        if (said.tx, said.rx, said.mult) != (before.tx, before.rx, before.mult):
            self.values = self.values[-7:] + [(moment, said.tx, said.rx, said.mult)]
            self.intervals_changed(said, before)
        if said.state != before.state:
            self.enters(moment, said, before)

    def intervals_changed(self, said, before):
        if (said.tx, said.rx) == (before.tx, before.rx) or said.state != UP:
            return
        if not said.flags & POLL:
            self.changed_without = f"Desired Min TX {span(said.tx)} and Required Min RX {span(said.rx)} after {span(before.tx)} and " \
                                   f"{span(before.rx)}"
        if before.state == UP and said.tx > before.tx:
            self.old_tx, self.late_gaps = before.tx, 0

    def enters(self, moment, said, before):
        """A change of state: some packet of the peer, or silence, has to have brought it."""
        peer, since = self.peer, max(self.recent[-1][0] - REACTION, 0) if self.recent else 0
        rows = [row for row in peer.recent if row[0] > since] if peer else []
        heard = [row[2] for row in rows if row[3] is None]
        if said.state in (INIT, UP) and said.state not in reachable(before.state, heard):
            dropped = [f"packet {row[1]} is dropped by {row[3]}" for row in rows if row[3] is not None]
            self.find("state", self.number, moment, f"{STATES[said.state]} after {STATES[before.state]}; allowed: "
                      f"{' or '.join(STATES[state] for state in sorted(reachable(before.state, heard)))}, as the peer said "
                      f"{' and '.join(dict.fromkeys(STATES[state] for state in heard)) or 'nothing'} since {seconds(since)}"
                      + "".join(f"; {text}" for text in dropped[-2:]), bool(peer), since)
        if said.state == DOWN and before.state in (INIT, UP):
            self.goes_down(moment, said, heard, since)

    def goes_down(self, moment, said, heard, since):
        peer = self.peer
        if said.diag == 3 and DOWN not in heard and ADMIN_DOWN not in heard:
            self.find("neighbor-down", self.number, moment, f"diagnostic 3, and the peer has said neither Down nor AdminDown since "
                      f"{seconds(since)}", bool(peer), since)
        if said.diag == 1 and peer and peer.values and not said.flags & DEMAND:
            least, slack = self.detection(since - 2 * REACTION)[0], self.judge.slack
            moments = [row[0] for row in peer.recent if row[3] is None]
            gaps = [later - sooner for sooner, later in zip(moments, [*moments[1:], moment]) if later > since]
            if gaps and max(gaps) < least - max(slack, least // 50):
                self.find("early-expiry", self.number, moment, f"diagnostic 1, and no more than {span(max(gaps))} passed without a packet "
                          f"of the peer; allowed: {span(least)} and more", self.is_local)

    # Polls.

    def polled(self, moment, said):
        """P and its absence in this end's packets."""
        if said.flags & POLL:
            self.polls.append(moment)
            self.changed_without = None
            self.poll_since, self.poll_packets = (moment, 1) if self.poll_since is None else (self.poll_since, self.poll_packets + 1)
        elif not said.flags & FINAL:
            self.poll_since = None
            if self.changed_without and said.contents == (self.last.contents if self.last else None):
                self.find("change-without-poll", self.number, moment, f"{self.changed_without}, and this packet has no P",
                          since=self.recent[-1][0])
                self.changed_without = None
        peer = self.peer
        if (peer and peer.poll_since is not None and peer.poll_packets > 1 and said.state == UP and not said.flags & FINAL
                and peer.unanswered_reported != peer.poll_since and peer.values and self.values):
            most = self.detection(peer.poll_since)[1]
            if moment - peer.poll_since > most + REACTION:
                peer.unanswered_reported = peer.poll_since
                self.find("poll-unanswered", self.number, moment, f"the peer's packets have P since {seconds(peer.poll_since)}, and none "
                          f"with F has come in the Detection Time of {span(most)}", since=peer.poll_since)

    def answered(self, moment):
        """F of this end."""
        peer = self.peer
        if not peer:
            return self.find("final-without-poll", self.number, moment, "F, and no packet of the peer is in the capture", False)
        oldest = moment - max(self.detection(moment)[1] if peer.values and self.values else 0, REACTION)
        while peer.polls and peer.polls[0] < oldest:
            peer.polls.popleft()
        if peer.polls:
            peer.polls.popleft()
        else:
            self.find("final-without-poll", self.number, moment, f"F, and the peer has sent no P that isn't answered since "
                      f"{seconds(max(oldest, 0))}", since=oldest)
        peer.poll_since, peer.old_tx = None, None

    # Silence of the peer, and its Down.

    def lives(self, moment, said):
        peer, slack = self.peer, self.judge.slack
        silence = moment - peer.heard_at
        if silence > REACTION and peer.values and not said.flags & DEMAND:
            self.silent(moment, said, silence, slack)
        down = peer.last and peer.last.state in (DOWN, ADMIN_DOWN) and peer.last.your == said.my
        if said.state == UP and self.last and self.last.state == UP and down:
            self.stays_up(moment, slack)
        else:
            self.downs = None

    def silent(self, moment, said, silence, slack):
        most = self.detection(peer_since(self.peer.heard_at))[1]
        if silence <= most + max(slack, most // 20):
            return
        if said.state in (INIT, UP) and self.silence_reported != self.peer.heard_at:
            self.silence_reported = self.peer.heard_at
            self.find("missed-expiry", self.number, moment, f"State {STATES[said.state]}, {span(silence)} after the peer's last packet; "
                      f"allowed: {span(most)}", self.is_local)
        if said.state == DOWN and said.your and self.forgot_reported != self.peer.heard_at:
            self.forgot_reported = self.peer.heard_at
            self.find("forgotten-discriminator", self.number, moment, f"Your Discriminator {said.your}, {span(silence)} after the peer's "
                      f"last packet; allowed: 0 after {span(most)}", self.is_local)

    def stays_up(self, moment, slack):
        """Up goes on where the peer says Down with this end's discriminator."""
        peer = self.peer
        if self.downs is None:
            self.downs = [moment, False]
        most = self.detection(self.downs[0])[1]
        limit = REACTION if self.is_local else most + max(slack, REACTION)
        if moment - self.downs[0] > limit and not self.downs[1]:
            self.downs[1] = True
            self.find("ignored-down", self.number, moment, f"Up, {span(moment - self.downs[0])} after the peer said "
                      f"{STATES[peer.last.state]} and went on to; allowed: Down immediately")

    # Discriminators and sequence numbers.

    def answers_head(self, number, moment, said):
        """Whether a packet goes to a head of multipoint BFD, and from no session of its address."""
        head = self.judge.heads.get((self.dst, said.your))
        if not head or not head.last or head.last.rx or self.peer and said.your in self.peer.discrs:
            return False
        self.find("tail-answer", number, moment, f"a packet to the head with My Discriminator {said.your} and Required Min RX 0; allowed: "
                  "none")
        return True

    def names_peer(self, number, moment, said):
        """Your Discriminator against all that the peer had in the capture."""
        peer = self.peer
        if said.your not in peer.discrs:
            known = ", ".join(map(str, peer.discrs[-3:]))
            self.find("your-discriminator", number, moment, f"Your Discriminator {said.your}; allowed: 0 or {known}", peer.last is not None)
        elif peer.last and said.your != peer.last.my and said.your in peer.discrs[:peer.discrs.index(peer.last.my)]:
            since = peer.born
            most = self.detection(since)[1] if peer.values and self.values else 0
            if moment - since > most + REACTION:
                self.find("your-discriminator", number, moment, f"Your Discriminator {said.your}, which the peer gave up at "
                          f"{seconds(since)}; allowed: 0 or {peer.last.my}", self.is_local)

    def sequence(self, moment, said, number):
        """Whether a packet's sequence number may follow the last one; a number that a receiver has forgotten binds nothing."""
        if self.seq is None or self.last is not None and said.my != self.last.my:
            self.seq, self.seq_at = number, moment
            return True
        step, window = (number - self.seq) % 2**32, 3 * said.mult
        forgotten = 2 * (self.peer.detection(moment)[1] if self.peer and self.peer.values and self.values else 0)
        meticulous = said.auth in (3, 5)
        if forgotten and moment - self.seq_at >= forgotten or (1 if meticulous else 0) <= step <= window:
            if meticulous and 1 < step <= window:
                self.hole(self.seq_at, moment, f"{step - 1} sequence number{'s are' if step > 2 else ' is'} missing")
            self.seq, self.seq_at = number, moment
            return True
        first = (self.seq + meticulous) % 2**32
        self.find("auth-sequence", self.number, moment, f"sequence number {number} after {self.seq}; allowed: {first} to "
                  f"{(self.seq + window) % 2**32}")
        return False

    # The end of the capture.

    def close(self, moment):
        count, least, most = self.ratios
        if count >= FEWEST_GAPS and most - least < LEAST_SPREAD:
            self.find("jitter", self.number, moment, f"{count} periodic packets, all {least:.3f} to {most:.3f} of the interval apart; "
                      "allowed: 0.75 to 1, at random")

    def name(self):
        return f"{shown(self.src)} to {shown(self.dst)}"


def peer_since(moment):
    """From when on values count that may have been in use at a moment."""
    return moment - 2 * REACTION


def reachable(state, heard):
    """The states that may follow by these received states, with silence and commands at any time (RFC 5880 sections 6.2 and 6.8.6)."""
    states = {state, DOWN, ADMIN_DOWN}
    for received in heard:
        for one in tuple(states):
            if one == DOWN and received == DOWN:
                states.add(INIT)
            elif one == DOWN and received == INIT or one == INIT and received in (INIT, UP):
                states.add(UP)
    return states
