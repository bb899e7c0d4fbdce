"""The rules that tools/judge asks of each end of a capture: a table of what the RFCs say, and the checks that one packet alone can fail.

`RULES` has each rule once, with its section. The checks that need what came before stand in ends.py, and for seamless BFD, multipoint BFD
and echo packets in others.py; those of a discard test are the program's answers (receivers.py). Nothing here is proved.
"""
from typing import NamedTuple

from reasons import span
from texts import BITS, STATES

POLL, FINAL, AUTH, DEMAND, MULTIPOINT = (BITS[bit] for bit in "PFADM")
SECOND = 1000000
AUTH_LENGTHS = {2: (24, 24), 3: (24, 24), 4: (28, 28), 5: (28, 28), 1: (4, 19)}  # least and greatest Auth Len


class Rule(NamedTuple):
    section: str
    says: str


RULES = {
    # of a packet alone, as a receiver has to discard it
    "version": Rule("RFC 5880 section 6.8.6", "Version is 1"),
    "length": Rule("RFC 5880 sections 4.1 and 6.8.6", "Length is 24, or with the A bit 26 and more, and not more than the payload"),
    "detect-mult": Rule("RFC 5880 section 6.8.6", "Detect Mult isn't 0"),
    "multipoint": Rule("RFC 5880 sections 4.1 and 6.8.6", "the M bit is 0 in a point-to-point session"),
    "my-discriminator": Rule("RFC 5880 section 6.8.6", "My Discriminator isn't 0"),
    "zero-discriminator": Rule("RFC 5880 section 6.8.6", "Your Discriminator is 0 only while State is Down or AdminDown"),
    "auth-type": Rule("RFC 5880 sections 4.1 and 6.7", "Auth Type is 1 to 5, and that of the session"),
    "auth-key": Rule("RFC 5880 section 6.7", "the Auth Key ID is one of the session's"),
    "auth-length": Rule("RFC 5880 sections 4.2 to 4.4", "Auth Len is that of the Auth Type"),
    "auth-digest": Rule("RFC 5880 section 6.7", "the digest or the password is that of the key"),
    "auth-missing": Rule("RFC 5880 section 6.8.6", "the A bit is set in a session with authentication"),
    "auth-unexpected": Rule("RFC 5880 section 6.8.6", "the A bit is clear in a session without authentication"),
    "ttl": Rule("RFC 5881 section 5", "the TTL is 255 over one hop"),
    # of a packet alone, as a sender may not send it
    "source-port": Rule("RFC 5881 section 4 (RFC 5883 section 5)", "the source port is 49152 to 65535"),
    "diagnostic": Rule("RFC 5880 section 4.1", "the diagnostic is 0 to 8; 9 to 31 are reserved"),
    "demand-bit": Rule("RFC 5880 section 6.8.7", "the D bit is 0 while State isn't Up"),
    "poll-and-final": Rule("RFC 5880 section 6.5", "P and F aren't both set"),
    "min-tx": Rule("RFC 5880 section 4.1", "Desired Min TX isn't 0, which is reserved"),
    "slow-start": Rule("RFC 5880 section 6.8.3", "Desired Min TX is a second or more while State isn't Up"),
    "auth-reserved": Rule("RFC 5880 sections 4.3 and 4.4", "the reserved byte of the authentication section is 0"),
    # of what came before
    "same-source-port": Rule("RFC 5881 section 4", "all packets of a session have one source port"),
    "destination-port": Rule("RFC 5881 section 4, RFC 5883 section 5", "both ends use 3784 over one hop, or both 4784 over several"),
    "your-discriminator": Rule("RFC 5880 section 6.8.7", "Your Discriminator is 0 or the peer's My Discriminator"),
    "forgotten-discriminator": Rule("RFC 5880 section 6.8.1", "Your Discriminator is 0 after a Detection Time without a packet"),
    "state": Rule("RFC 5880 section 6.8.6", "a state is entered by a packet that leads there"),
    "neighbor-down": Rule("RFC 5880 section 6.8.6", "diagnostic 3 is given when the peer said Down or AdminDown"),
    "early-expiry": Rule("RFC 5880 section 6.8.4", "diagnostic 1 is given when no packet came for a Detection Time"),
    "missed-expiry": Rule("RFC 5880 section 6.8.4", "the session leaves Init and Up when no packet came for a Detection Time"),
    "ignored-down": Rule("RFC 5880 section 6.8.6", "the session leaves Up when the peer says Down or AdminDown"),
    "final-without-poll": Rule("RFC 5880 section 6.8.7", "F answers a packet with P"),
    "poll-unanswered": Rule("RFC 5880 section 6.5", "a packet with P is answered immediately by one with F"),
    "change-without-poll": Rule("RFC 5880 section 6.8.3", "a changed Desired Min TX or Required Min RX begins a Poll Sequence"),
    "interval-before-poll": Rule("RFC 5880 section 6.8.3", "a longer Desired Min TX is used when its Poll Sequence has ended"),
    "too-early": Rule("RFC 5880 section 6.8.7", "periodic packets are at least 0.75 of the interval apart"),
    "too-late": Rule("RFC 5880 section 6.8.7", "periodic packets are at most the interval apart, 0.9 of it with Detect Mult 1"),
    "jitter": Rule("RFC 5880 section 6.8.7", "the interval between periodic packets is jittered"),
    "min-rx-zero": Rule("RFC 5880 section 6.8.7", "no periodic packet goes to a peer whose Required Min RX is 0"),
    "demand": Rule("RFC 5880 sections 6.6 and 6.8.7", "no periodic packet goes to a peer in demand mode, but in a Poll Sequence"),
    "auth-sequence": Rule("RFC 5880 sections 6.7.3 and 6.7.4", "the sequence number rises, by one with the meticulous types"),
    "unique-discriminator": Rule("RFC 5880 section 6.3", "My Discriminator is another in each session of a system"),
    # of echo packets
    "echo-state": Rule("RFC 5880 section 6.8.9", "no echo packet is sent while the own State isn't Up"),
    "echo-unwanted": Rule("RFC 5880 section 6.8.9", "no echo packet goes to a peer whose Required Min Echo RX is 0"),
    "echo-early": Rule("RFC 5880 section 6.8.9", "echo packets are at least 0.75 of the peer's Required Min Echo RX apart, and one may "
                       "come between two"),
    "echo-destination": Rule("RFC 5881 section 4", "an echo packet's destination makes the peer forward it back"),
    # of seamless BFD
    "sbfd-ttl": Rule("RFC 7881 sections 5 and 6", "packets of both ends are sent with TTL 255"),
    "seeker-port": Rule("RFC 7881 section 5", "an initiator's source port isn't 7784"),
    "seeker-demand": Rule("RFC 7880 section 7.3.2", "an initiator's packet has the D bit"),
    "seeker-state": Rule("RFC 7880 section 7.3.1", "an initiator isn't in Init"),
    "seeker-min-rx": Rule("RFC 7880 section 7.3.2", "an initiator's Required Min RX and Required Min Echo RX are 0"),
    "seeker-early": Rule("RFC 7880 section 7.3.3", "an initiator's packets are the reflector's Required Min RX apart or more, a second "
                         "where it is AdminDown, less jitter"),
    "reflector-demand": Rule("RFC 7880 section 7.2.2", "a reflector's answer has no D bit"),
    "reflector-state": Rule("RFC 7880 section 7.2.2", "a reflector's answer says Up or AdminDown"),
    "reflector-echo": Rule("RFC 7880 section 7.2.2", "a reflector's Required Min Echo RX is 0"),
    "reflector-answer": Rule("RFC 7880 section 7.2", "a reflector answers each packet with D once, with both discriminators exchanged and "
                             "F for P, and no other"),
    "reflector-copies": Rule("RFC 7880 section 7.2.2", "an answer has the packet's Detect Mult and Desired Min TX"),
    "reflector-port": Rule("RFC 7881 section 6", "an answer goes to the packet's source port"),
    # of multipoint BFD
    "head-multipoint": Rule("RFC 8562 section 5.13.3", "a head's packet has the M bit"),
    "head-demand": Rule("RFC 8562 section 5.13.3", "a head's packet has the D bit"),
    "head-discriminator": Rule("RFC 8562 section 5.13.3", "a head's Your Discriminator is 0"),
    "head-min-rx": Rule("RFC 8562 section 5.13.3", "a head's Required Min RX is 0, but where tails are active (RFC 8563)"),
    "head-state": Rule("RFC 8562 section 5.5", "a head isn't in Init"),
    "head-poll": Rule("RFC 8562 section 5.10", "a head sends a changed interval in packets with P"),
    "head-interval": Rule("RFC 8562 section 5.10", "a head sends a longer interval at the old one before it uses it"),
    "tail-answer": Rule("RFC 8562 section 5.10", "a tail sends nothing to a head whose Required Min RX is 0"),
}

# The rule that a sender broke whose packet fails a discard test. The others (YourUnknown, AuthSeq, NoSession ..) depend on what came
# before, and ends.py asks for them. A tail's are its head's alone: NoTail and those on the A bit say nothing of the head.
OF_DROP = {"Version": "version", "LengthMin": "length", "LengthOver": "length", "Short": "length", "DetectMult": "detect-mult",
           "Multipoint": "multipoint", "MultipointYour": "multipoint", "NoTail": "multipoint", "NotDemand": "seeker-demand",
           "MyDiscr": "my-discriminator", "YourZeroState": "zero-discriminator",
           "AuthMissing": "auth-missing", "AuthUnexpected": "auth-unexpected", "AuthType": "auth-type",
           "AuthKey": "auth-key", "AuthLen": "auth-length",
           "AuthDigest": "auth-digest"}
OF_TAILS_DROP = {"MultipointYour": "head-discriminator"} | {
    test: OF_DROP[test] for test in ("Version", "LengthMin", "LengthOver", "Short", "DetectMult", "MyDiscr")}


class Said:
    """What a packet says but for its sequence number and digest. One is made for all packets of an end that are alike in the rest."""
    __slots__ = ("payload", "ttl", "source", "target", "port", "version", "diag", "state", "flags", "mult", "length", "my", "your", "tx",
                 "rx", "echo", "auth", "key", "is_numbered", "contents", "drop", "faults", "epoch", "end")

    def __init__(self, payload, ttl, source, target, end):
        self.payload, self.ttl, self.source, self.target, self.end, self.port = payload, ttl, source, target, end, end.port
        self.drop, self.epoch = None, 0
        head = payload[:24].ljust(24, b"\0")
        self.version, self.diag, self.state, self.flags = head[0] >> 5, head[0] & 31, head[1] >> 6, head[1] & 63
        self.mult, self.length = head[2], head[3]
        self.my, self.your, self.tx, self.rx, self.echo = (int.from_bytes(head[at:at + 4], "big") for at in (4, 8, 12, 16, 20))
        section = payload[24:] if self.flags & AUTH else b""
        self.auth = section[0] if section else None
        self.key = section[2] if len(section) > 2 else None
        self.is_numbered = self.auth in (2, 3, 4, 5) and len(section) >= 8
        self.contents = head[:1] + bytes([head[1] & ~(POLL | FINAL)]) + head[2:]  # what an extra packet may announce (section 6.8.7)
        self.faults = tuple(faults_of(self))

    def is_whole(self):
        """Whether it has the fields of a control packet of this version."""
        return len(self.payload) >= 24 and self.version == 1


def faults_of(said):
    """Each rule that a packet breaks as its sender has sent it: (rule, what is there)."""
    for rule, ports, fails in ALONE:
        if said.port in ports and said.is_whole():
            found = fails(said)
            if found:
                yield rule, found


def auth_length(said):
    least, greatest = AUTH_LENGTHS.get(said.auth, (0, 255))
    given = said.payload[25] if len(said.payload) > 25 else None
    if given is None or least <= given <= greatest and 24 + given <= said.length:
        return None
    return f"Auth Len {given} in a packet of Length {said.length}; allowed: {least}" + (f" to {greatest}" if greatest > least else "")


def lacks(bit, name):
    """That a packet has a bit."""
    return lambda said: not said.flags & bit and f"no {name} bit; allowed: {name} set"


def is_init(said):
    return said.state == 2 and "State Init; allowed: Down, Up or AdminDown"


P2P, HEAD, SEEKER, ANSWER = ("single", "multi"), ("head",), ("sbfd",), ("answer",)
SENDERS = P2P + HEAD + SEEKER     # those that send by a timer
CONTROL = SENDERS + ANSWER

# Rule, the kinds of ends, and a function that answers what is wrong.
ALONE = (
    ("ttl", ("single",), lambda said: said.ttl != 255 and f"TTL {said.ttl}; allowed: 255"),
    ("source-port", P2P, lambda said: said.source < 49152 and f"source port {said.source}; allowed: 49152 to 65535"),
    ("diagnostic", CONTROL, lambda said: said.diag > 8 and f"diagnostic {said.diag}; allowed: 0 to 8"),
    ("demand-bit", P2P, lambda said: said.flags & DEMAND and not said.flags & MULTIPOINT and said.state != 3
     and f"D with State {STATES[said.state]}; allowed: only with Up"),
    ("poll-and-final", CONTROL, lambda said: said.flags & POLL and said.flags & FINAL and "P and F; allowed: one of them"),
    ("min-tx", SENDERS, lambda said: said.tx == 0 and "Desired Min TX 0; allowed: 1 microsecond and more"),
    ("slow-start", P2P + HEAD, lambda said: said.state != 3 and 0 < said.tx < SECOND
     and f"Desired Min TX {span(said.tx)} with State {STATES[said.state]}; allowed: 1 s or more"),
    ("length", CONTROL, lambda said: not said.flags & AUTH and said.length > 24 and said.length <= len(said.payload)
     and f"Length {said.length} without the A bit; allowed: 24"),
    ("auth-type", P2P + HEAD, lambda said: said.auth is not None and said.auth not in AUTH_LENGTHS
     and f"Auth Type {said.auth}; allowed: 1 to 5, others are reserved"),
    ("auth-length", P2P + HEAD, lambda said: said.auth is not None and auth_length(said)),
    ("auth-reserved", P2P + HEAD, lambda said: said.is_numbered and said.payload[27]
     and f"reserved byte {said.payload[27]}; allowed: 0"),
    ("sbfd-ttl", SEEKER + ANSWER, lambda said: said.end.is_local and said.ttl != 255 and f"TTL {said.ttl}; allowed: 255"),
    ("seeker-port", SEEKER, lambda said: said.source == 7784 and "source port 7784; allowed: any other"),
    ("seeker-demand", SEEKER, lacks(DEMAND, "D")),
    ("seeker-state", SEEKER, is_init),
    ("seeker-min-rx", SEEKER, lambda said: (said.rx or said.echo)
     and f"Required Min RX {span(said.rx)}, Required Min Echo RX {span(said.echo)}; allowed: 0"),
    ("reflector-demand", ANSWER, lambda said: said.flags & DEMAND and "D; allowed: D clear"),
    ("reflector-state", ANSWER, lambda said: said.state in (1, 2) and f"State {STATES[said.state]}; allowed: Up or AdminDown"),
    ("reflector-echo", ANSWER, lambda said: said.echo and f"Required Min Echo RX {span(said.echo)}; allowed: 0"),
    ("head-multipoint", HEAD, lacks(MULTIPOINT, "M")),
    ("head-demand", HEAD, lacks(DEMAND, "D")),
    ("head-discriminator", HEAD, lambda said: said.your and f"Your Discriminator {said.your}; allowed: 0"),
    ("head-state", HEAD, is_init),
)
