"""The summary of a session's whole course: times, packets, intervals, polls and authentication. The intervals that were advertised and
used are the program's answers (asked.py), and those that were seen are between packets of the packet file and of its report.

Nothing here is proved.
"""
import collections
import statistics

from names import AUTH_TYPES as TYPES
from reasons import counted, drops_in_words, seconds, span

LEAST_GAPS = 3  # of a median


def summary_of(course):
    """A course as numbers: what --json writes."""
    answers = [answer for _, answer in course.part.answers.get(course.session.discr, ())]
    flaps = sum(change.old == "Up" for change in course.changes)
    return {"state": course.state, "seconds": {state: moment / 1e6 for state, moment in course.times.items()},
            "changes": len(course.changes), "flaps": flaps, "packets_in": len(course.came), "packets_out": len(course.sent),
            "dropped": dict(collections.Counter(reason for _, _, reason in course.drops)),
            "refused_commands": dict(collections.Counter(name for _, _, name in course.refusals)),
            "advertised_min_tx": distinct(answer.adv_tx for answer in answers),
            "used_min_tx": distinct(answer.used_tx for answer in answers),
            "used_min_rx": distinct(answer.used_rx for answer in answers),
            "detection_times": distinct(answer.detect for answer in answers if answer.detect),
            "peer_advertised": distinct((packet.tx, packet.rx, packet.mult) for _, _, packet in course.came),
            "seen_in": gaps_of(course.came, course), "seen_out": gaps_of(course.sent, course),
            "polls": polls_of(course.own_polls), "peer_polls": polls_of(course.peer_polls), "authentication": authentication(course)}


def distinct(values):
    """The values in the order in which they came to be, each once where it repeats."""
    found = []
    for value in values:
        if not found or found[-1] != value:
            found.append(value)
    return found


def gaps_of(packets, course):
    """Between two packets that say Up and have neither P nor F: the least, median and most in microseconds, and these as parts of the
    interval that the two sides' packets agree on. While a Poll Sequence is on, what is advertised isn't what is used."""
    theirs, mine = (course.sent, course.came) if packets is course.came else (course.came, course.sent)
    rows, other, rx = [], 0, None
    before = None
    for moment, _, packet in packets:
        while other < len(theirs) and theirs[other][0] <= moment:
            rx = theirs[other][2].rx if theirs[other][2].state == "Up" else rx
            other += 1
        if packet.has("F"):
            continue
        if packet.state != "Up":
            before = None
            continue
        if before is not None and rx is not None and not packet.has("P"):
            rows.append((moment - before, max(packet.tx, rx)))
        before = moment
    if len(rows) < LEAST_GAPS:
        return None
    gaps, parts = sorted(gap for gap, _ in rows), sorted(gap / interval for gap, interval in rows if interval)
    return {"packets": len(rows) + 1, "least": gaps[0], "median": int(statistics.median(gaps)), "most": gaps[-1],
            "parts": [round(part, 3) for part in (parts[0], statistics.median(parts), parts[-1])] if parts else None}


def polls_of(spans):
    return [{"since": since, "length": until - since} for since, until in spans]


def authentication(course):
    """The Auth Type, the changes of keys on both sides, and the packets whose sequence number was refused; None without."""
    types = sorted({packet.auth for _, _, packet in (*course.came, *course.sent) if packet.auth})
    if not types:
        return None
    return {"types": types, "peer_keys": key_changes(course.came), "own_keys": key_changes(course.sent),
            "refused_numbers": sum(reason == "AuthSeq" for _, _, reason in course.drops)}


def key_changes(packets):
    rows = []
    for moment, _, packet in packets:
        if packet.key is not None and (not rows or rows[-1]["key"] != packet.key):
            rows.append({"moment": moment, "key": packet.key})
    return rows


# As text.

def summary_lines(course):
    summary = summary_of(course)
    times = ", ".join(f"{span(round(moment * 1e6))} {state}" for state, moment in summary["seconds"].items())
    yield f"In all: {times}; {counted(summary['changes'], 'change')} of state, {counted(summary['flaps'], 'flap')} (left Up)."
    dropped = sum(summary["dropped"].values())
    yield (f"Packets: {summary['packets_in']} accepted, {summary['packets_out']} sent, {dropped} dropped"
           + (f": {drops_in_words(summary['dropped'])}." if dropped else "."))
    yield (f"Own intervals: Desired Min TX advertised {series(summary['advertised_min_tx'])}, in use {series(summary['used_min_tx'])}; "
           f"Required Min RX in use {series(summary['used_min_rx'])}; Detection Time {series(summary['detection_times'])}.")
    if summary["peer_advertised"]:
        rows = [f"{span(tx)} / {span(rx)} / {mult}" for tx, rx, mult in summary["peer_advertised"]]
        yield f"The peer advertised Desired Min TX / Required Min RX / Detect Mult: {shortened(rows)}."
    for name, seen in (("from the peer", summary["seen_in"]), ("of this side", summary["seen_out"])):
        if seen:
            parts = " ({} / {} / {} of the interval)".format(*seen["parts"]) if seen["parts"] else ""
            yield (f"Seen in Up {name}, between packets: {span(seen['least'])} least, {span(seen['median'])} median, "
                   f"{span(seen['most'])} most{parts}; RFC 5880 section 6.8.7 allows 0.75 to 1, and to 0.9 with Detect Mult 1.")
    for name, polls in (("Own", summary["polls"]), ("The peer's", summary["peer_polls"])):
        if polls:
            rows = [f"at {seconds(poll['since'])} for {span(poll['length'])}" for poll in polls]
            yield f"{name} Poll Sequences: {shortened(rows)}."
    if summary["refused_commands"]:
        yield "Refused commands: " + ", ".join(f"{count} by {name}" for name, count in summary["refused_commands"].items()) + "."
    yield from authentication_lines(summary["authentication"])


def authentication_lines(auth):
    if not auth:
        return
    types = " and ".join(f"{kind} ({TYPES.get(kind, 'unknown')})" for kind in auth["types"])
    sides = (("the peer's", auth["peer_keys"]), ("the own", auth["own_keys"]))
    keys = [f"{name} key {' then '.join(str(row['key']) for row in rows[:6])}" for name, rows in sides if rows]
    changes = [f"{name} changed to {row['key']} at {seconds(row['moment'])}" for name, rows in sides for row in rows[1:6]]
    yield (f"Authentication: Auth Type {types}; {', '.join(keys)}{'; ' + ', '.join(changes) if changes else ''}; "
           f"{counted(auth['refused_numbers'], 'sequence number')} refused.")


def series(values):
    return shortened([span(value) for value in values]) or "none"


def shortened(rows, most=6):
    return ", then ".join(rows[:most]) + (f", and {len(rows) - most} more" if len(rows) > most else "")
