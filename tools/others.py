"""What a capture has besides sessions of two ends: initiators and reflectors of seamless BFD, heads of multipoint BFD, and echo packets.

rules.py has the table, ends.py the end of a session, tools/judge the whole. Nothing here is proved.
"""
import collections

from ends import End, REACTION, RECENT, UP
from reasons import seconds, span
from rules import DEMAND, FINAL, OF_TAILS_DROP, POLL, SECOND
from texts import STATES, shown

MOST_OUT = 1000  # echo packets that may be on their way


class Seamless(End):
    """An address that asks reflectors, or one of these (RFC 7880)."""

    def __init__(self, *given):
        super().__init__(*given)
        self.questions = collections.deque(maxlen=RECENT)  # of an initiator, without an answer yet
        self.sent, self.replies = {}, {}                   # by both discriminators: an initiator's last packet, the last two answers

    def sought(self, said):
        return said.your

    def take(self, number, moment, said, drop, _payload):
        self.faults(number, moment, said, drop)
        if not said.is_whole():
            return
        if self.port == "sbfd":
            self.asks(number, moment, said)
        else:
            self.answers(number, moment, said)

    def asks(self, number, moment, said):
        """A question is kept, where the reflector has to answer it (section 7.2), and comes no sooner than it allows (section 7.3.3)."""
        key = said.my, said.your
        if said.flags & DEMAND:
            self.questions.append(said)
        last, before, was_periodic = self.sent.get(key, (0, None, False))
        is_periodic = before is not None and before.contents == said.contents
        replies = self.peer.replies.get(key, ()) if self.peer else ()
        if is_periodic and was_periodic and replies:
            least = min(max(answer.rx, 0 if answer.state else SECOND) for answer in replies) * 3 // 4
            if moment - last < least - min(self.judge.slack, least // 20):
                self.find("seeker-early", number, moment, f"{span(moment - last)} after the packet before it; allowed: {span(least)}")
        self.sent[key] = moment, said, is_periodic

    def answers(self, number, moment, said):
        """An answer has to be one to a question that isn't answered yet."""
        questions = self.peer.questions if self.peer else ()
        fitting = [asked for asked in questions
                   if (asked.my, asked.your, bool(asked.flags & POLL)) == (said.your, said.my, bool(said.flags & FINAL))]
        key = said.your, said.my
        self.replies[key] = (*self.replies.get(key, ())[-1:], said)
        if not fitting:
            self.find("reflector-answer", number, moment, f"an answer to {said.your} from {said.my} with F {said.flags & FINAL > 0:d}; "
                      "allowed: one to each packet with D", bool(self.peer and self.peer.sent))
            return
        alike = [asked for asked in fitting if (asked.mult, asked.tx) == (said.mult, said.tx)]
        asked = next((one for one in alike if one.source == said.target), (alike or fitting)[0])
        questions.remove(asked)
        if not alike:
            self.find("reflector-copies", number, moment, f"Detect Mult {said.mult} and Desired Min TX {span(said.tx)}; allowed: "
                      f"{asked.mult} and {span(asked.tx)}")
        if asked.source != said.target:
            self.find("reflector-port", number, moment, f"to port {said.target}; allowed: {asked.source}")


class Head(End):
    """A head of multipoint BFD, which sends to a group and hears nothing (RFC 8562)."""

    def sought(self, said):
        return said.my or 1

    def note(self, said):
        super().note(said)
        if said.my:
            self.judge.heads[self.src, said.my] = self

    def take(self, number, moment, said, drop, payload):
        self.faults(number, moment, said, drop, OF_TAILS_DROP)
        if not said.is_whole() or drop in OF_TAILS_DROP:
            return
        self.number = number
        if said.rx:
            self.find("head-min-rx", number, moment, f"Required Min RX {span(said.rx)}; allowed: 0, or active tails", False)
        if said.is_numbered and not self.sequence(moment, said, int.from_bytes(payload[28:32], "big")):
            return
        self.follow(moment, said, None)

    def enters(self, moment, said, before):
        """It changes its state by commands alone, so each change may be right."""

    def intervals_changed(self, said, before):
        if said.tx != before.tx and said.state == UP == before.state and not said.flags & POLL:
            self.changed_without = f"Desired Min TX {span(said.tx)} after {span(before.tx)}"

    def changed(self, moment, said, before):
        super().changed(moment, said, before)
        gap = moment - self.recent[-1][0]
        if said.state == UP == before.state and said.tx > before.tx and gap > before.tx + self.judge.slack:
            self.find("head-interval", self.number, moment, f"{span(gap)} after the packet before it, and it is the first with "
                      f"Desired Min TX {span(said.tx)}; allowed: {span(before.tx)}", self.is_local)

    def find(self, rule, *given, **more):
        super().find({"change-without-poll": "head-poll"}.get(rule, rule), *given, **more)


class Echoes:
    """The echo packets between two addresses, or of one with itself."""
    keyed, port, peer, auth = False, "echo", None, None

    def __init__(self, judge, place, src, dst):
        self.judge, self.place, self.src, self.dst = judge, place, src, dst
        self.out = {}                 # the TTL of each payload as it was last sent
        self.sent = []                # the last two: (moment, number)
        self.is_local = src in judge.locals

    def take(self, number, moment, packet, _drop, payload):
        back = self.judge.echoes.get((self.place, self.dst, self.src))
        if any(one and one.out.get(payload, 0) > packet.ttl for one in (self, back)):
            return  # (the peer has forwarded it)
        self.out.pop(payload, None)
        self.out[payload] = packet.ttl
        if len(self.out) > MOST_OUT:
            del self.out[next(iter(self.out))]
        ends = self.ends(self.src) or self.ends(self.dst)
        if not ends:
            self.judge.left_out["echo packets of addresses without a session over one hop in the capture"] += 1
            return
        self.is_local = ends[0].is_local
        if any(end.dst == self.dst for end in ends):
            self.find("echo-destination", number, moment, f"to {shown(self.dst)}, the peer's own address; allowed: one that the peer "
                      "forwards, as the sender's own")
        self.may_be_sent(number, moment, ends)
        self.spaced(number, moment, ends)

    def ends(self, owner):
        """The sessions of an address on this interface, as far as both sides have been heard."""
        return [end for end in self.judge.by_owner.get((self.place, owner), ()) if end.last]

    def may_be_sent(self, number, moment, ends):
        is_up = any(end.last.state == UP for end in ends)
        if not is_up:
            ends[0].waiting.append((self, number, moment, ends))
        peers = [end.peer for end in ends if end.peer and end.peer.last and end.peer.echoes]
        since = [peer.echoes[-1][0] for peer in peers if peer.echoes[-1][1] == 0]
        if is_up and len(since) == len(ends) and moment > max(since) + (REACTION if ends[0].is_local else SECOND):
            self.find("echo-unwanted", number, moment, f"an echo packet, and the peer's Required Min Echo RX is 0 since "
                      f"{seconds(max(since))}; allowed: none")

    def settle(self, end, number, moment, ends):
        """Whether an echo packet that was sent outside Up was sent before Up was announced: the end's next packet says it."""
        if not any(one.last.state == UP for one in ends):
            self.find("echo-state", number, moment, f"an echo packet, and its sender's packets before and after it say "
                      f"{STATES[end.last.state]}; allowed: Up")

    def spaced(self, number, moment, ends):
        """Three echo packets take an interval, since one may come between two."""
        peer = ends[0].peer if len(ends) == 1 else None
        if len(self.sent) == 2 and peer and peer.echoes:
            rows = [row for row in peer.echoes if row[0] < moment]
            since = max((at for at, row in enumerate(rows) if row[0] <= self.sent[0][0] - SECOND), default=0)
            least = min((row[1] for row in rows[since:]), default=0) * 3 // 4
            gap = moment - self.sent[0][0]
            if gap < least - min(self.judge.slack, least // 20):
                self.find("echo-early", number, moment, f"the second within {span(gap)} after frame {self.sent[0][1]}; allowed: "
                          f"{span(least)} and more for two")
        self.sent = self.sent[-1:] + [(moment, number)]

    def find(self, rule, number, moment, what, certain=True):
        self.judge.find(rule, self, number, moment, what, certain, None)

    def close(self, moment):
        """Nothing is left to judge."""

    def name(self):
        return f"{shown(self.src)} to {shown(self.dst)}"
