"""Served texts, as the tools read them. docs/FORMATS.md says what they are.

The journal of each shard becomes a packet file with the shard's sessions, and its report has the lines of the served text. Nothing
here is proved.
"""
import heapq

from texts import EVENTS, Complaint, Line, Script, quoted, text_of

SESSIONS = ("p2p", "sbfd", "head", "tail")
REPORTED = ("state", "tx", "drop", "refuse", "show")
BACK_TTL = 254  # of an echo packet that came back: a served text doesn't have it, and nothing reads it


class Shard:
    """A shard: its entries as (line of the served text, caller, line of an event), and its report lines with theirs."""

    def __init__(self):
        self.turns, self.lines = [], []

    def count(self, word):
        return sum(line.split(" ", 2)[1] == word for _, line in self.lines)


class Served:
    """A served text: its shards, and the numbers of its last line."""

    def __init__(self, text, name):
        self.name, self.shards, self.entries, self.sent, self.lost = name, [], None, None, None
        for place, line in enumerate(lines_of(text), 1):
            try:
                if self.entries is not None or not line.isprintable():
                    raise ValueError
                self.take(place, line)
            except (ValueError, IndexError):
                raise Complaint(f"{name}: line {place} is in no served text: {quoted(line)}") from None
        if self.entries is None or text[-1] != "\n":
            raise Complaint(f"{name} isn't a whole served text: its last line `served ..` is missing, or cut off")

    def take(self, place, line):
        words = line.split(" ", 3)
        if words[0] == "shard" and line == f"shard {len(self.shards)}":
            self.shards.append(Shard())
        elif words[0] == "turn" and int(words[1]) == len(self.shards[-1].turns) + 1:
            self.shards[-1].turns.append((place, int(words[2]), words[3]))
        elif words[0] == "served" and self.shards:
            self.entries, self.sent, self.lost = map(int, words[1:])
        elif words[1] in REPORTED and len(words) > 2 and int(words[0]) == len(self.shards[-1].turns) > 0:
            self.shards[-1].lines.append((place, line))
        else:
            raise ValueError


def lines_of(text):
    """The lines of a text one by one, since a long run's needn't all be there twice. What stands behind the last LF is none."""
    start = 0
    while (end := text.find("\n", start)) >= 0:
        yield text[start:end]
        start = end + 1


class Live:
    """The script of a run: its lines, and those of each session, which stand together."""

    def __init__(self, text, name):
        self.name, self.script, self.version, self.tables, self.orders = name, Script(text, name), "bfd 1", {}, []
        for line in text.split("\n"):
            words = line.split(" ")
            if words[0] == "bfd":
                self.version = line
            elif words[0] in SESSIONS or words[0] in ("auth", "key"):
                self.tables.setdefault(int(words[1]), []).append(line)
            elif words[0] in ("cmd", "show"):
                self.orders.append((int(words[2]), line))
            elif words[0] in ("rx", "tick"):
                raise Complaint(f"{name} is no script of a run: it has a line `{words[0]}`")

    def on_shard(self, number, count):
        """The discriminators of a shard's sessions: the sessions are dealt to the shards by ascending discriminator."""
        return sorted(self.tables)[number::count]


def packet_file(live, served, number):
    """The packet file of a shard. A reflector isn't in it, since what it answers makes no entry."""
    discrs = live.on_shard(number, len(served.shards))
    table = [line for discr in discrs for line in live.tables[discr]]
    events = [event_line(live, served, place, event) for place, _, event in served.shards[number].turns]
    return "\n".join([live.version, *table, "run", *events, "end", ""])


def event_line(live, served, place, event):
    """The line of an event in a packet file, where an echo packet that came back is one that comes in."""
    words = event.split(" ")
    if words[0] in EVENTS:
        return event
    try:
        _, moment, discr, sequence = words
        session = live.script.sessions[int(discr)]
        payload = b"BFDe" + int(discr).to_bytes(4, "big") + int(sequence).to_bytes(4, "big") + bytes(4)
        local = next(line for line in live.tables[int(discr)] if line.startswith("p2p")).split(" ")[4]
    except (ValueError, KeyError, StopIteration, OverflowError):
        raise Complaint(f"{served.name}: line {place} is no event of this script: {quoted(event)}") from None
    return f"rx {moment} echo {session.iface} {local} {local} {BACK_TTL} {payload.hex()}"


def report_text(shard):
    """The report that a replay of the shard's packet file has to give."""
    last = f"done {len(shard.turns)} {shard.count('tx')} {shard.count('drop')}"
    return "\n".join([*(line for _, line in shard.lines), last, ""])


def whole_run(live, served):
    """The run as a script with all its sessions, and its events with their report lines, one after another. The events of all shards
    are in the order of time, and those of a shard in that of its journal."""
    shards = (entries_of(live, served, shard) for shard in served.shards)
    return live.script, ((event, lines) for _, event, lines in heapq.merge(*shards, key=lambda entry: entry[0]))


def entries_of(live, served, shard):
    """Each entry of a shard: its moment, where one that goes back counts as the last one, its event, and its report lines, which
    stand right behind it."""
    reader, latest, at = Script("", served.name), 0, 0
    for place, _, text in shard.turns:
        try:
            event = reader.event_of(event_line(live, served, place, text).split(" "))
        except (ValueError, IndexError):
            raise Complaint(f"{served.name}: line {place} is no event of this script: {quoted(text)}") from None
        lines = []
        while at < len(shard.lines) and shard.lines[at][0] == place + len(lines) + 1:
            number, word, *words = shard.lines[at][1].split(" ")
            if not live.script.may_have(word, words):
                raise Complaint(f"{served.name}: line {shard.lines[at][0]} is none of this script: {quoted(shard.lines[at][1])}")
            lines.append(Line(int(number), word, words))
            at += 1
        latest = max(latest, event.moment)
        yield latest, event, lines


def read_run(script, served):
    """The script and the served text of these files."""
    return Live(text_of(script), script), Served(text_of(served), served)
