"""What a receiver has to do with each packet of a capture: the discard tests of the program, asked for each direction.

Each end that packets go to becomes a session of a packet file, with the discriminator that it announced, and again for each discriminator
that it had later. A session without keys is given each packet once, however often it came, and whatever its sequence number and digest:
its discard tests look at the packet alone, and at none of these. One with keys is given all, since a sequence number depends on those
before. Sessions that can't stand in one packet file, as two with one discriminator, are put into several.

Nothing here is proved.
"""
from texts import Complaint, replayed, spelled

MOST_LINES, MOST_KEYS, MOST_TEXT = 190000, 4, 60000000
FREE = 0xF0000001  # discriminators for sessions whose own was never seen


class Slot:
    """A session of a packet file: an end that packets go to, while it had one discriminator. `lines` are the packets, and `targets`
    what the answer to each is for: a `Said`, or the number of a frame."""

    def __init__(self, discr, table, selectors):
        self.discr, self.table, self.selectors = discr, table, selectors
        self.lines, self.targets = [], []

    def pieces(self):
        """The packets in as many parts as packet files need; each part begins with the last packet of the one before."""
        for start in range(0, max(len(self.lines), 1), MOST_LINES):
            since = max(start - 1, 0)
            yield self, self.lines[since:start + MOST_LINES], self.targets[since:start + MOST_LINES], start - since


def drops_of(rows, keys, program):
    """Asks the program. Fills `drop` of each Said, and answers {number of a frame: test} for sessions with keys."""
    slots, given, unkeyed = {}, set(), set()
    for number, moment, end, said, payload in rows:
        if end.port == "echo":
            continue
        slot = slots.get((end, said.epoch)) or slots.setdefault((end, said.epoch), slot_of(end, said, keys, unkeyed))
        if end.keyed:
            slot.lines.append(line_of(end, moment, said.ttl, payload))
            slot.targets.append(number)
        elif said not in given:
            given.add(said)
            slot.lines.append(line_of(end, moment, said.ttl, payload))
            slot.targets.append(said)
    dropped = {}
    for pieces in packed([piece for slot in slots.values() for piece in slot.pieces()]):
        for target, test in answers(pieces, program):
            if isinstance(target, int):
                dropped[target] = test
            elif test != "AuthUnexpected" or not uses_keys(target.end):
                target.drop = test
    return dropped, unkeyed


def uses_keys(end):
    """Whether a session without a key here has one there: then most of its packets have a section."""
    return 2 * end.sections > end.count


def slot_of(end, said, keys, unkeyed):
    """The session that packets of this end go to."""
    discr = end.sought(said) or FREE + len(unkeyed)
    if end.port == "sbfd":
        return Slot(discr, [f"reflector {discr} 1000000 up"], None)
    ends = f"{end.iface} {spelled(end.dst)} {spelled(end.src)}"
    if end.port == "head":
        return Slot(discr, [f"tail {discr} {discr} {ends}"], (end.port, discr, end.dst, end.src))
    if end.port == "answer":
        return Slot(discr, [f"sbfd {discr} {said.my or 1} {ends} 1000000 3 0"], None)
    rx = min(max(end.peer.rx_announced if end.peer else 1000000, 10000), 60000000)
    table = [f"p2p {discr} {end.port} {ends} passive 1000000 {rx} 3 0 0"]
    if end.auth:
        fitting = {}
        for peer, kind, number, secret in keys:
            if kind == end.auth and peer in (None, end.src, end.dst):
                fitting.setdefault(number, secret)
        rows = sorted(fitting.items())[:MOST_KEYS]
        end.keyed = bool(rows)
        if not rows:
            unkeyed.add(end)
        table += [f"{'key' if at else 'auth'} {discr} {'' if at else f'{end.auth} '}{number} {secret.hex()}"
                  for at, (number, secret) in enumerate(rows)]
    return Slot(discr, table, (end.port, end.iface if end.port == "single" else None, end.dst, end.src))


def line_of(end, moment, ttl, payload):
    port = "single" if end.port == "head" else end.port
    return f"rx {moment} {port} {end.iface} {spelled(end.src)} {spelled(end.dst)} {ttl} {payload[:256].hex() or '-'}"


def packed(pieces):
    """The pieces in as few packet files as their discriminators, addresses and sizes allow."""
    files = []
    for piece in pieces:
        slot, lines = piece[0], piece[1]
        size = sum(map(len, lines)) + len(lines)
        for file in files:
            if (slot.discr not in file[1] and (slot.selectors is None or slot.selectors not in file[1]) and len(file[1]) < 60000
                    and file[2] + len(lines) <= MOST_LINES + 1 and file[3] + size <= MOST_TEXT):
                break
        else:
            file = [[], set(), 0, 0]
            files.append(file)
        file[0].append(piece)
        file[1] |= {slot.discr, slot.selectors}
        file[2] += len(lines)
        file[3] += size
    return [file[0] for file in files]


def answers(pieces, program):
    """The packets of these sessions that the program drops: (target, test)."""
    table = [line for slot, _, _, _ in pieces for line in slot.table]
    targets, lines = [], []
    for _, own, of, again in pieces:
        lines += own
        targets += [None] * again + of[again:]
    version = "bfd 2" if any(line.startswith("key ") for line in table) else "bfd 1"
    report = replayed(program, "\n".join([version, *table, "run", *lines, "end", ""]))
    if not report.rstrip("\n").rsplit("\n", 1)[-1].startswith("done "):
        raise Complaint(f"the program gives no report of the capture's packets: {report[:80]!r}")
    for line in report.split("\n"):
        words = line.split(" ")
        if len(words) == 3 and words[1] == "drop":
            target = targets[int(words[0]) - 1]
            if target is not None:
                yield target, words[2]
