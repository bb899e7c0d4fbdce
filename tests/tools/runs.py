"""Served texts for tests/tools/run, as `bfdd serve` would have written them."""
import sys
from pathlib import Path

import captures

TOP = Path(__file__).resolve().parent.parent.parent

BEFORE_SELECTION = {"Short", "Version", "LengthMin", "LengthOver", "DetectMult", "Multipoint", "MyDiscr", "YourUnknown",
                    "YourZeroState", "NoSession", "MultipointYour", "NoTail", "EchoForm"}


def served_as(script, count):
    """The live script of an example, and the served text of a run on so many shards that heard and did what the example has."""
    sys.path.insert(0, str(TOP / "tools"))
    from texts import Script, report_of
    text = script.read_text()
    parsed = Script(text, script.name)
    lines = {}
    for line in report_of(script.with_suffix(".report").read_text(), parsed, script.name):
        lines.setdefault(line.number, []).append(line)
    discrs, shards, sent = sorted(parsed.sessions), [[] for _ in range(count)], 0

    def enter(shard, event, reported):
        turn = event.words if not (event.arrival and event.arrival.port == "echo") else [
            "back", event.words[1], str(parsed.session_of(event)), str(int.from_bytes(event.arrival.payload[8:12], "big"))]
        shards[shard].append((" ".join([str(int(event.word not in ("tick", "cmd", "show"))), *turn]), reported))

    for number, event in enumerate(parsed.events, 1):
        reported = [line for line in lines.get(number, ()) if line.word != "tx" or int(line.words[0]) not in parsed.reflectors]
        if event.word == "tick":
            for shard in range(count):
                enter(shard, event, [line for line in reported if discrs.index(int(line.words[0])) % count == shard])
        elif parsed.session_of(event) in discrs and not any(line.word == "drop" and line.words[0] in BEFORE_SELECTION for line in reported):
            enter(discrs.index(parsed.session_of(event)) % count, event, reported)
    out = []
    for shard, entries in enumerate(shards):
        out.append(f"shard {shard}")
        for at, (turn, reported) in enumerate(entries, 1):
            out += [f"turn {at} {turn}", *(" ".join([str(at), line.word, *line.words]) for line in reported)]
            sent += sum(line.word == "tx" for line in reported)
    live = "\n".join(line for line in text.split("\n") if not line.startswith(("rx ", "tick ")))
    return live, "\n".join([*out, f"served {sum(map(len, shards))} {sent} 0", ""])


def busy_run(shards, entries, sessions):
    """The script and the served text of a run of which each session, at one of its entries after another, is Up and Down again, has a
    command refused and a packet dropped, hears an old echo packet and sends one."""
    table = [f"p2p {at} single 1 127.0.0.1 127.0.{at // 250}.{at % 250 + 1} passive 1000000 1000000 3 100000 0"
             for at in range(1, sessions + 1)]
    heard = {bits: captures.payload(f"state={bits} my=7") for bits in ("Down", "Up", "Up P F")}
    sent, out = 0, []
    for shard in range(shards):
        own = range(shard + 1, sessions + 1, shards)
        out.append(f"shard {shard}")
        for at in range(1, entries + 1):
            discr, moment = own[at // 6 % len(own)], at * 700
            came = f"2 rx {moment} single 1 127.0.{discr // 250}.{discr % 250 + 1} 127.0.0.1 255 "
            entry = {0: (came + heard["Up P F"].hex(), f"state {discr} Down Up 0", f"tx {discr} {heard['Up P F'].hex()}"),
                     1: (f"0 cmd {moment} {discr} tx 300000", "refuse PollBusy"), 2: (came + heard["Up"].hex(), "drop AuthKey"),
                     3: (f"3 back {moment} {discr} {at}", "drop EchoStale"),
                     4: (f"0 tick {moment // 1000}", f"tx {discr} 42464465{discr:08x}{at:08x}00000000"),
                     5: (came + heard["Down"].hex(), f"state {discr} Up Down 3")}[at % 6]
            out += [f"turn {at} {entry[0]}", *(f"{at} {line}" for line in entry[1:])]
            sent += at % 6 in (0, 4)
    return "\n".join(["bfd 1", *table, "run", "end", ""]), "\n".join([*out, f"served {shards * entries} {sent} 0", ""]), sent
