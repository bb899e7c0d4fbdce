"""The probes of tools/probe: what each plays to a daemon, and what a right one does, with the section of its RFC.

Each is given a peer (peer.py) and answers whether the daemon did right, or None if that is undecided, and what was seen. A probe that
wants the session Up gets it so. Nothing here is proved.
"""
import statistics
import time
from typing import NamedTuple

from peer import ADMIN_DOWN, DOWN, INIT, UP
from reasons import diagnostic
from rules import DEMAND, FINAL, MULTIPOINT, POLL

SOON = 0.25         # seconds in which F has to come
WATCH = 0.6         # in which a packet that was accepted would show in Up
SLOW = 1.4          # the same outside Up, where packets come each second
SPARE = 0.3         # by which a state may be announced late
EARLY = 0.01        # by which a timer may seem early
STRAY = 0.05        # the part of all gaps that may be too short or too long, since a machine with other work delays packets


class Probe(NamedTuple):
    name: str
    section: str
    says: str
    play: object
    starts: str = "Up"      # the state that the daemon has at the start, or "any"
    keys: bool | None = None   # only with keys, only without, or both
    hops: str = ""          # only over one hop, `single`, or only over several, `multi`
    minute: bool = False    # whether it takes the seconds of --jitter


def stays_up(peer, **given):
    """A packet that says Down, with something that a receiver has to discard: the session stays Up."""
    ttl, port = given.pop("ttl", 255), given.pop("port", None)
    payload = given.pop("payload", None) or peer.packet(**({"state": DOWN} | given))
    peer.send(payload, ttl, port)
    return still_up(peer.run(WATCH, lambda came: came.packet.state != "Up"))


def still_up(came):
    """What it means that a packet came that doesn't say Up, or none. A session that expired says nothing of what was sent."""
    if came is None:
        return True, "it stayed Up"
    return None if came.packet.diag == 1 else False, f"it went {came.packet.state}, diagnostic {diagnostic(came.packet.diag)}"


def enters(peer, wanted, seconds, expected=None, /, **given):
    """A packet that has to bring the daemon to a state."""
    peer.send(peer.packet(**given))
    came = peer.run(seconds, lambda came: came.packet.state == wanted)
    if not came:
        return False, f"it wasn't {wanted} within {seconds} seconds"
    right = expected is None or came.packet.diag == expected
    return right, f"it went {wanted}" + ("" if expected is None else f", diagnostic {diagnostic(came.packet.diag)}")


def stays(peer, present, /, **given):
    """A packet that may not change the daemon's state."""
    peer.run(0.05)
    start = peer.came[-1].moment if peer.came else 0
    for _ in range(2):
        peer.send(peer.packet(**given))
        other = peer.run(SLOW / 2, lambda came: came.packet.state != present)
        if other:
            return False, f"it went {other.packet.state}"
    heard = [came for came in peer.since(start) if came.moment > start]
    return (True, f"it stayed {present}") if heard else (None, f"it sent nothing in {SLOW} seconds")


def refused(peer, present, /, **given):
    """A packet with P that has to be discarded: no F comes, and the state stays. Without P a daemon may accept it and show that later."""
    peer.send(peer.packet(**({"flags": POLL} | given)))
    came = peer.run(SLOW, lambda came: came.packet.has("F") or came.packet.state != present)
    if came is None:
        return True, f"it stayed {present}, and sent no F"
    return False, f"it answered by F with State {came.packet.state}" if came.packet.has("F") else f"it went {came.packet.state}"


def to_init(peer):
    """Keeps the daemon in Init by a peer that says Down."""
    peer.follows, peer.sends, peer.state, peer.diag, peer.next = False, True, DOWN, 0, 0.0
    return peer.run(4, lambda came: came.packet.state == "Init") is not None


def answered(peer, **given):
    """P has its F, soon."""
    start = peer.came[-1].moment if peer.came else 0
    peer.send(peer.packet(flags=peer.flags | POLL, **given))
    sent = peer.last_sent
    came = peer.run(SOON, lambda came: came.packet.has("F") and came.moment > start)
    return came is not None, (f"F came after {(came.moment - sent) * 1000:.1f} ms" if came else f"no F came within {SOON * 1000:.0f} ms")


# What its packets say.

def own_fields(peer):
    faults = {f"{name} {value}" for came in peer.came for name, value, right in (
        ("Version", came.packet.version, came.packet.version == 1),
        ("Length", came.payload[3], came.payload[3] == len(came.payload) and (came.packet.has("A") or len(came.payload) == 24)),
        ("Detect Mult", came.packet.mult, came.packet.mult > 0), ("M", 1, not came.packet.has("M")),
        ("diagnostic", came.packet.diag, came.packet.diag < 9),
        ("D outside Up", 1, not came.packet.has("D") or came.packet.state == "Up")) if not right}
    return not faults, f"{len(peer.came)} packets" + "".join(f"; {fault}" for fault in sorted(faults))


def own_ttl(peer):
    ttls = {came.ttl for came in peer.came}
    return ttls == {255}, f"TTL {', '.join(map(str, sorted(ttls, key=str)))}"


def own_port_range(peer):
    ports = sorted({came.source for came in peer.came})
    return all(port >= 49152 for port in ports), f"source port {', '.join(map(str, ports[:4]))}"


def own_port_one(peer):
    ports = sorted({came.source for came in peer.came})
    return len(ports) == 1, f"{len(ports)} source port{'s' * (len(ports) != 1)}: {', '.join(map(str, ports[:4]))}"


def own_discriminators(peer):
    mine = {came.packet.my for came in peer.came}
    up = [came for came in peer.came if came.packet.state == "Up"]
    right = 0 not in mine and all(came.packet.your for came in up)
    return right, f"My Discriminator {', '.join(map(str, sorted(mine)[:3]))}"


def own_slow_start(peer):
    rows = [came.packet.tx for came in peer.came if came.packet.state != "Up"]
    if not rows:
        return None, "it was never seen outside Up"
    return min(rows) >= 1000000, f"Desired Min TX {min(rows)} microseconds at least in {len(rows)} packets outside Up"


def own_finals(peer):
    both = sum(came.packet.has("P") and came.packet.has("F") for came in peer.came)
    return not both, f"{both} of {len(peer.came)} packets have both"


def unasked_finals(peer):
    """F came only for a P: while the peer sends none for two seconds."""
    start = peer.came[-1].moment
    peer.run(2)
    unasked = sum(came.packet.has("F") for came in peer.since(start)[1:])
    return not unasked, f"{unasked} packets with F in 2 seconds without P"


# The state machine.

def up_in_down(peer):
    return stays(peer, "Down", state=UP)


def zero_in_init(peer):
    if not to_init(peer):
        return None, "it didn't come to Init"
    return refused(peer, "Init", state=UP, your=0)


def down_to_init(peer):
    return (True, "it went Init") if to_init(peer) else (False, "it wasn't Init within 4 seconds")


def init_to_up(peer):
    if not to_init(peer):
        return None, "it didn't come to Init"
    return goes_up(peer, UP)


def goes_up(peer, state):
    """Init, or Up in Init, brings it Up; it may say so in its next periodic packet, so the peer goes on till then."""
    peer.follows, peer.sends, peer.state, peer.diag, peer.next = False, True, state, 0, 0.0
    came = peer.run(SLOW * 2, lambda came: came.packet.state == "Up")
    return came is not None, "it went Up" if came else f"it wasn't Up within {SLOW * 2} seconds"


def down_in_init(peer):
    if not to_init(peer):
        return None, "it didn't come to Init"
    return stays(peer, "Init", state=DOWN)


def goes_down(state, name, **given):
    """A packet that takes a session in Up down with diagnostic 3."""
    def play(peer):
        peer.follows = peer.sends = False
        return enters(peer, "Down", WATCH + SPARE, 3, state=state, **given)
    play.__name__ = name
    return play


def stays_admin_down(peer):
    """While the peer says AdminDown, the session stays Down."""
    peer.follows, peer.state, peer.diag = False, ADMIN_DOWN, 7
    peer.next = 0.0
    peer.run(4, lambda came: came.packet.state == "Down")
    other = peer.run(2.5, lambda came: came.packet.state != "Down")
    return other is None, "it stayed Down" if other is None else f"it went {other.packet.state}"


def init_in_up(peer):
    peer.send(peer.packet(state=INIT))
    return still_up(peer.run(WATCH, lambda came: came.packet.state != "Up"))


def restart(peer):
    """A peer that restarts has another discriminator."""
    peer.fresh()
    peer.next, discr = 0.0, peer.my
    came = peer.run(8, lambda came: came.packet.state == "Up" and peer.state == UP and came.packet.your == discr)
    return came is not None, "it came Up with the new discriminator" if came else "it didn't come Up within 8 seconds"


# Polls and intervals.

def poll_in_down(peer):
    return answered(peer, state=DOWN)


def poll_in_init(peer):
    if not to_init(peer):
        return None, "it didn't come to Init"
    return answered(peer, state=DOWN)


def poll_in_up(peer):
    return answered(peer)


def poll_till_final(peer):
    """A Poll Sequence of the daemon goes on until F, and then ends. It begins one as it comes Up, where an interval changes there."""
    before = [came.packet for came in peer.came if came.packet.state == "Down"][-1:]
    peer.answers, peer.follows, peer.sends, peer.state, peer.diag, peer.next = False, True, True, DOWN, 0, 0.0
    first = peer.run(8, lambda came: came.packet.state == "Up" and came.packet.has("P"))
    if not first:
        now = peer.came[-1].packet
        same = before and (before[0].tx, before[0].rx) == (now.tx, now.rx)
        return (None if same or now.state != "Up" else False), "no P came" + (", and no interval changed" if same else "")
    start = peer.came[-1].moment
    peer.run(1.5)
    plain = [came for came in peer.since(start) if not came.packet.has("P") and not came.packet.has("F")]
    if plain:
        return False, f"P was clear after {(plain[0].moment - start) * 1000:.0f} ms, and no F was sent"
    peer.send(peer.packet(flags=FINAL))
    peer.answers = True
    peer.run(0.05)
    rest = peer.since(peer.last_sent)
    came = peer.run(2, lambda came: not came.packet.has("P"))
    return came is not None and len(rest) < 3, "P until F, and then clear" if came else "P went on after F"


def gaps(peer, seconds):
    """Between periodic packets of the daemon in Up, over so many seconds."""
    start = peer.came[-1].moment
    peer.run(seconds)
    moments = [came.moment for came in peer.since(start) if came.packet.state == "Up" and not came.packet.has("F")]
    return [later - sooner for sooner, later in zip(moments, moments[1:])]


def jitter(peer, seconds):
    """A minute of periodic packets: 0.75 to 1 of the interval apart, to 0.9 with Detect Mult 1, and not all alike."""
    last = peer.came[-1].packet
    interval = max(last.tx, peer.rx) / 1e6
    most = 0.9 if last.mult == 1 else 1.0
    rows = sorted(gap / interval for gap in gaps(peer, seconds))
    if len(rows) < 10:
        return None, f"{len(rows)} gaps in {seconds} seconds"
    slack = EARLY / interval
    text = f"Detect Mult {last.mult}: {len(rows)} gaps of {rows[0]:.2f} / {statistics.median(rows):.2f} / {rows[-1]:.2f} of " \
           f"{interval * 1000:.0f} ms"
    low, high = sum(row < 0.75 - slack for row in rows), sum(row > most + slack for row in rows)
    if rows[-1] - rows[0] < 0.02:
        return False, text + "; no jitter"
    return low + high <= len(rows) * STRAY, text + (f"; {low} too short, {high} too long" if low or high else "")


def slower(peer):
    """A greater Required Min RX without P is obeyed immediately."""
    peer.rx = 1000000
    peer.send()
    peer.run(0.3)
    rows = [gap for gap in gaps(peer, 4)]
    if not rows:
        return None, "fewer than two packets came in 4 seconds"
    return min(rows) >= 0.75 - EARLY, f"{len(rows) + 1} packets, {min(rows) * 1000:.0f} ms apart at least; allowed: 750 ms"


def quiet(peer, seconds=2.5):
    """How many periodic packets come, after those that were on their way."""
    peer.send()
    peer.run(0.4)
    start = peer.came[-1].moment if peer.came else 0
    peer.run(seconds)
    rows = [came for came in peer.since(start)[1:] if not came.packet.has("F") and not came.packet.has("P")]
    other = [came.packet.state for came in rows if came.packet.state != "Up"]
    return not rows, f"{len(rows)} periodic packets in {seconds} seconds" + (f", and it went {other[0]}" if other else "")


def min_rx_zero(peer):
    peer.rx = 0
    return quiet(peer)


def poll_at_zero(peer):
    peer.rx = 0
    peer.send()
    peer.run(0.4)
    return answered(peer)


def demand(peer):
    peer.flags = DEMAND
    return quiet(peer)


def poll_in_demand(peer):
    peer.flags = DEMAND
    peer.send()
    peer.run(0.4)
    return answered(peer)


# Silence.

def silence(peer):
    """The daemon goes Down a Detection Time after the last packet, with diagnostic 1."""
    peer.send()
    peer.sends, start, detection = False, peer.last_sent, peer.detection()
    came = peer.run(detection + 2, lambda came: came.packet.state == "Down")
    if not came:
        return False, f"it wasn't Down {detection + 2:.1f} seconds after the last packet"
    after = came.moment - start
    right = detection - EARLY <= after <= detection + SPARE and came.packet.diag == 1
    return right, f"Down after {after * 1000:.0f} ms, diagnostic {diagnostic(came.packet.diag)}; the Detection Time is " \
                  f"{detection * 1000:.0f} ms"


def longer_silence(peer):
    """A changed Detect Mult and Desired Min TX of the peer change the Detection Time."""
    peer.mult, peer.tx = 5, 200000
    peer.send(peer.packet(flags=POLL))
    peer.run(0.7)
    return silence(peer)


def shorter_mult(peer):
    """With Detect Mult 1 one missing packet is enough."""
    peer.mult, peer.tx = 1, 400000
    peer.next = 0.0
    peer.send(peer.packet(flags=POLL))
    return silence(peer)


def forgets(peer):
    """After the Detection Time Your Discriminator is 0."""
    right, text = silence(peer)
    came = peer.run(SLOW, lambda came: came.packet.state == "Down" and came.packet.your == 0)
    if came or peer.came[-1].packet.your == 0:
        return True, "Your Discriminator 0"
    return False, f"Your Discriminator {peer.came[-1].packet.your}"


# Authentication.

def own_sections(peer):
    """Its authentication sections: type, key, length and reserved byte."""
    keys = peer.keys
    size = 3 + len(keys.secret) if keys.kind == 1 else 8 + keys.size()
    faults = {text for came in peer.came for text, right in (
        ("no A bit", came.packet.has("A")), (f"Auth Type {came.packet.auth}", came.packet.auth == keys.kind),
        (f"Auth Key ID {came.packet.key}", came.packet.key == keys.number),
        ("Auth Len", len(came.payload) == 24 + size and came.payload[25] == size),
        ("reserved byte", keys.kind == 1 or len(came.payload) > 27 and came.payload[27] == 0)) if not right}
    return not faults, f"{len(peer.came)} packets" + "".join(f"; {fault}" for fault in sorted(faults))


def own_numbers(peer):
    start = peer.came[-1].moment
    peer.run(3)
    rows = [came.packet.seq for came in peer.since(start)]
    steps = {(later - sooner) % 2**32 for sooner, later in zip(rows, rows[1:])}
    right = steps == {1} if peer.keys.kind in (3, 5) else all(step < 2**31 for step in steps)
    return right, f"{len(rows)} packets, steps {', '.join(map(str, sorted(steps)))}"


def clear_a_bit(peer):
    return stays_up(peer, plain=True)


def another_type(peer):
    return stays_up(peer, kind=peer.keys.kind % 5 + 1)


def another_key(peer):
    return stays_up(peer, key=(peer.keys.number + 1) % 256)


def wrong_digest(peer):
    return stays_up(peer, digest=bytes(peer.keys.size()) if peer.keys.kind > 1 else b"!")


def wrong_length(peer):
    return stays_up(peer, authlen=(3 + len(peer.keys.secret) if peer.keys.kind == 1 else 8 + peer.keys.size()) - 1)


def replayed(peer):
    """The last number again: the meticulous types refuse it, and the others take it."""
    if peer.keys.kind in (3, 5):
        return stays_up(peer, seq=peer.seq)
    peer.follows = peer.sends = False
    right, text = enters(peer, "Down", WATCH + SPARE, state=DOWN, seq=peer.seq)
    return right, text


def old_number(peer):
    return stays_up(peer, seq=peer.seq - 3)


def far_number(peer):
    return stays_up(peer, seq=peer.seq + 3 * peer.mult + 20)


def wrapped(peer):
    """Numbers go on from 4294967295 to 0. The daemon forgets the old ones after two Detection Times of silence."""
    detection = peer.detection()
    peer.sends = False
    peer.run(2 * detection + 1)
    peer.run(4)
    peer.seq = 2**32 - 12
    if not peer.settle():
        return None, "it didn't come Up with numbers from 4294967284 on"
    other = peer.run(3, lambda came: came.packet.state != "Up")
    right = other is None and peer.seq < 1000
    return right, f"it stayed Up till number {peer.seq}" if right else "it went Down, or numbers didn't come so far"


def replay_after_expiry(peer):
    """A packet with an old number after a Detection Time of silence, and before the second one has passed."""
    old = peer.packet(state=DOWN, your=0, flags=POLL)
    peer.run(1)
    detection = peer.detection()
    peer.sends = peer.follows = False
    start = peer.last_sent
    if not peer.run(detection + SPARE, lambda came: came.packet.state == "Down"):
        return None, "it didn't go Down"
    if time.monotonic() > start + 2 * detection - SOON / 2:
        return None, "it went Down too late to ask"
    peer.send(old)
    came = peer.run(SOON, lambda came: came.packet.has("F"))
    return came is None, "it sent no F" if came is None else f"it took it, and answered by F with State {came.packet.state}"


DISCARDS = (
    ("version-0", "RFC 5880 section 6.8.6", "Version 0 is discarded", {"version": 0}),
    ("version-2", "RFC 5880 section 6.8.6", "Version 2 is discarded", {"version": 2}),
    ("length-23", "RFC 5880 section 6.8.6", "a Length of 23 is discarded", {"length": 23}),
    ("length-25-with-A", "RFC 5880 section 6.8.6", "a Length of 25 with the A bit is discarded", {"length": 25, "flags": 4}),
    ("length-over", "RFC 5880 section 6.8.6", "a Length beyond the payload is discarded", {"length": 25}),
    ("detect-mult-0", "RFC 5880 section 6.8.6", "Detect Mult 0 is discarded", {"mult": 0}),
    ("multipoint", "RFC 5880 section 6.8.6", "the M bit is discarded", {"flags": MULTIPOINT}),
    ("my-discriminator-0", "RFC 5880 section 6.8.6", "My Discriminator 0 is discarded", {"my": 0}),
    ("your-unknown", "RFC 5880 section 6.8.6", "an unknown Your Discriminator is discarded", {"your": None}),
)


def discard(name, given):
    def play(peer):
        fields = dict(given)
        if "your" in fields:
            fields["your"] = (peer.your + 0x10001) % 2**32 or 1
        return stays_up(peer, **fields)
    play.__name__ = name
    return play


def unexpected_section(peer):
    """A whole section of type 1 where the session has no keys."""
    plain = peer.packet(state=DOWN, flags=4, length=24 + 9)
    return stays_up(peer, payload=plain + bytes([1, 9, 5]) + b"secret")


PROBES = [
    Probe("comes-up", "RFC 5880 section 6.8.6", "Down, Init and Up of the peer bring it Up", lambda peer: (True, "it came Up")),
    *(Probe(name, section, says, discard(name, given), keys=False) for name, section, says, given in DISCARDS),
    Probe("auth-unexpected", "RFC 5880 section 6.8.6", "the A bit without keys is discarded", unexpected_section, keys=False),
    Probe("ttl-254", "RFC 5881 section 5", "TTL 254 is discarded over one hop", lambda peer: stays_up(peer, ttl=254),
          keys=False, hops="single"),
    Probe("port-4784", "RFC 5883 section 5", "a session over one hop isn't reached on port 4784", lambda peer: stays_up(peer, port=4784),
          keys=False, hops="single"),
    Probe("port-3784", "RFC 5881 section 4", "a session over several hops isn't reached on port 3784",
          lambda peer: stays_up(peer, port=3784), keys=False, hops="multi"),
    Probe("your-0-init-in-down", "RFC 5880 section 6.8.6", "Init with Your Discriminator 0 is discarded in Down",
          lambda peer: refused(peer, "Down", state=INIT, your=0), "Down", False),
    Probe("your-0-up-in-down", "RFC 5880 section 6.8.6", "Up with Your Discriminator 0 is discarded in Down",
          lambda peer: refused(peer, "Down", state=UP, your=0), "Down", False),
    Probe("your-0-up-in-init", "RFC 5880 section 6.8.6", "Up with Your Discriminator 0 is discarded in Init", zero_in_init, "Down", False),
    Probe("your-0-down-in-up", "RFC 5880 section 6.8.6", "Down with Your Discriminator 0 brings it Down", goes_down(DOWN, "zero", your=0),
          keys=False),
    Probe("up-in-down", "RFC 5880 section 6.8.6", "Up leaves it Down", up_in_down, "Down", False),
    Probe("down-in-down", "RFC 5880 section 6.8.6", "Down moves it from Down to Init", down_to_init, "Down", False),
    Probe("init-in-down", "RFC 5880 section 6.8.6", "Init moves it from Down to Up",
          lambda peer: goes_up(peer, INIT), "Down", False),
    Probe("down-in-init", "RFC 5880 section 6.8.6", "Down leaves it Init", down_in_init, "Down", False),
    Probe("up-in-init", "RFC 5880 section 6.8.6", "Up moves it from Init to Up", init_to_up, "Down", False),
    Probe("init-in-up", "RFC 5880 section 6.8.6", "Init leaves it Up", init_in_up, keys=False),
    Probe("down-in-up", "RFC 5880 section 6.8.6", "Down moves it from Up to Down with diagnostic 3", goes_down(DOWN, "down"), keys=False),
    Probe("admin-down-in-up", "RFC 5880 section 6.8.6", "AdminDown moves it from Up to Down with diagnostic 3",
          goes_down(ADMIN_DOWN, "admin", diag=7), keys=False),
    Probe("admin-down-holds", "RFC 5880 section 6.2", "it stays Down while the peer says AdminDown", stays_admin_down, keys=False),
    Probe("restart", "RFC 5880 section 6.3", "a peer with another My Discriminator brings it Up again", restart),
    Probe("poll-in-down", "RFC 5880 section 6.5", "P is answered by F in Down", poll_in_down, "Down", False),
    Probe("poll-in-init", "RFC 5880 section 6.5", "P is answered by F in Init", poll_in_init, "Down", False),
    Probe("poll-in-up", "RFC 5880 section 6.5", "P is answered by F in Up", poll_in_up),
    Probe("own-poll", "RFC 5880 section 6.5", "its Poll Sequence lasts until F", poll_till_final, "Down", False),
    Probe("final-unasked", "RFC 5880 section 6.8.7", "F is sent only for P", unasked_finals, keys=False),
    Probe("greater-min-rx", "RFC 5880 section 6.8.7", "a greater Required Min RX slows it immediately", slower, keys=False),
    Probe("min-rx-0", "RFC 5880 section 6.8.7", "at Required Min RX 0 it sends nothing periodically", min_rx_zero, keys=False),
    Probe("poll-at-min-rx-0", "RFC 5880 section 6.8.7", "P is answered at Required Min RX 0 too", poll_at_zero, keys=False),
    Probe("demand", "RFC 5880 section 6.8.7", "to a peer in demand mode it sends nothing periodically", demand, keys=False),
    Probe("poll-in-demand", "RFC 5880 section 6.6", "P is answered in demand mode too", poll_in_demand, keys=False),
    Probe("silence", "RFC 5880 section 6.8.4", "it goes Down with diagnostic 1 after the Detection Time", silence),
    Probe("longer-silence", "RFC 5880 section 6.8.4", "the peer's Detect Mult 5 and 200 ms make the Detection Time", longer_silence,
          keys=False),
    Probe("mult-1", "RFC 5880 section 6.8.4", "the peer's Detect Mult 1 and 400 ms make the Detection Time", shorter_mult, keys=False),
    Probe("forgets", "RFC 5880 section 6.8.1", "its Your Discriminator is 0 after the Detection Time", forgets, keys=False),
    Probe("auth-numbers", "RFC 5880 section 6.7", "its sequence numbers rise, by one with the meticulous types", own_numbers, keys=True),
    Probe("auth-missing", "RFC 5880 section 6.8.6", "a packet without the A bit is discarded", clear_a_bit, keys=True),
    Probe("auth-type", "RFC 5880 section 6.7", "another Auth Type is discarded", another_type, keys=True),
    Probe("auth-key", "RFC 5880 section 6.7", "another Auth Key ID is discarded", another_key, keys=True),
    Probe("auth-length", "RFC 5880 section 6.7", "a wrong Auth Len is discarded", wrong_length, keys=True),
    Probe("auth-digest", "RFC 5880 section 6.7", "a wrong digest or password is discarded", wrong_digest, keys=True),
    Probe("auth-repeated", "RFC 5880 sections 6.7.3 and 6.7.4",
          "a repeated number is refused by the meticulous types, and accepted by the others", replayed, keys=True),
    Probe("auth-old", "RFC 5880 section 6.7.3", "an old number is refused", old_number, keys=True),
    Probe("auth-far", "RFC 5880 section 6.7.3", "a number beyond three times Detect Mult is refused", far_number, keys=True),
    Probe("auth-wrapped", "RFC 5880 section 6.7.3", "numbers go on from 4294967295 to 0", wrapped, keys=True),
    Probe("auth-replay-late", "RFC 5880 section 6.8.1", "an old packet is refused after one Detection Time of silence", replay_after_expiry,
          keys=True),
    Probe("jitter", "RFC 5880 section 6.8.7", "periodic packets are 0.75 to 1 of the interval apart, at random", jitter,
          keys=False, minute=True),
    Probe("own-fields", "RFC 5880 section 4.1", "Version, Length, flags and diagnostic are right", own_fields, "any"),
    Probe("own-sections", "RFC 5880 sections 4.2 to 4.4", "its authentication sections are right", own_sections, "any", True),
    Probe("own-ttl", "RFC 5881 section 5", "its TTL is 255", own_ttl, "any", None, "single"),
    Probe("own-port-range", "RFC 5881 section 4", "its source port is 49152 to 65535", own_port_range, "any"),
    Probe("own-port-one", "RFC 5881 section 4", "its source port stays", own_port_one, "any"),
    Probe("own-discriminators", "RFC 5880 section 6.8.7", "My Discriminator is never 0, and Your Discriminator not in Up",
          own_discriminators, "any"),
    Probe("own-slow-start", "RFC 5880 section 6.8.3", "Desired Min TX is a second or more outside Up", own_slow_start, "any"),
    Probe("own-poll-and-final", "RFC 5880 section 6.5", "P and F are never both set", own_finals, "any"),
]
NUMBERED = {"auth-numbers", "auth-repeated", "auth-old", "auth-far", "auth-wrapped", "auth-replay-late"}  # types 2 to 5 alone
