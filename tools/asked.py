"""Asks the program how sessions stood: puts `show` lines into a copy of a packet file, and reads the answers of its replay.

A question is an event of its session, so it could change what the session does next: a packet that has just come due goes out with
the question, and not with the next tick. So the copy's report without the answers has to be the report of the packet file itself.
A question at which anything else happened is taken out of the copy, and asked as the last event of a copy that ends there.

Nothing here is proved.
"""
import bisect
from typing import NamedTuple

from served import packet_file, read_run, report_text
from texts import Complaint, Script, packet_of, replayed, report_of, text_of

MOST_EVENTS, MOST_COPIES = 200000, 200
FIELDS = 10  # behind the word `show`: the discriminator and what Answer has


class Answer(NamedTuple):
    """What a `show` line of a report says of a session; intervals in microseconds."""
    state: str
    diag: int
    remote_state: str
    remote_discr: int
    adv_tx: int
    used_tx: int
    used_rx: int
    detect: int
    poll: int


class Part:
    """A packet file and its report: all sessions of a file, or those of a shard. `answers` are by discriminator, each as the number
    of the event after which it was so, and the answer."""

    def __init__(self, text, name, report, report_name):
        self.name, self.script = name, Script(text, name)
        lines = text.split("\n")
        start = lines.index("run") + 1 if "run" in lines else len(lines)
        self.table, self.events = lines[:start], [line for line in lines[start:] if line not in ("", "end")]
        self.report = [[] for _ in range(len(self.events) + 1)]
        for line in report_of(report, self.script, report_name):
            self.report[line.number].append(line)
        self.answers, self.unasked = {}, 0

    def happenings(self):
        """Each event with its number and its report lines."""
        return ((number, event, self.report[number]) for number, event in enumerate(self.script.events, 1))

    def before(self, discr, number):
        """The last answer of a session before an event, or None."""
        rows = self.answers.get(discr, ())
        at = bisect.bisect_left(rows, number, key=lambda row: row[0])
        return rows[at - 1][1] if at else None

    def ask(self, program):
        """Fills `answers`."""
        wanted = self.questions()
        late = set()
        while True:
            asked = [question for question in wanted if question not in late]
            found, moved = self.replay(program, asked)
            if not moved:
                break
            late |= moved
        for number, discr in sorted(late)[:MOST_COPIES]:
            found.append((number, discr, self.last_answer(program, number, discr)))
        self.unasked += max(len(late) - MOST_COPIES, 0)
        for number, discr, answer in sorted(found):
            self.answers.setdefault(discr, []).append((number, answer))

    def questions(self):
        """Where each session is asked, as (number of the event before, discriminator): at the start, and after each event that may
        change what its answer says. Where there is no room for all, changes of state come first."""
        first = {(0, discr) for discr in self.script.sessions}
        second, headers = set(), {}
        for number, event, lines in self.happenings():
            first |= {(number, int(line.words[0])) for line in lines if line.word == "state"}
            discr = self.script.session_of(event)
            if discr not in self.script.sessions:
                continue
            header = event.arrival.payload[:24] if event.arrival else None
            if header is None or header != headers.get(discr) and packet_of(event.arrival.payload):
                second.add((number, discr))
                headers[discr] = header
        room = MOST_EVENTS - len(self.events)
        chosen = sorted(first) + sorted(second - first)
        self.unasked = max(len(chosen) - room, 0)
        return sorted(chosen[:max(room, 0)])

    def replay(self, program, asked):
        """The answers, and the questions at which something else happened."""
        lines, origin, at = [], [None], 0
        for number in range(len(self.events) + 1):
            if number:
                lines.append(self.events[number - 1])
                origin.append(number)
            while at < len(asked) and asked[at][0] == number:
                lines.append(f"show 0 {asked[at][1]}")
                origin.append(asked[at])
                at += 1
        report = self.run(program, lines)
        found, moved, own = [], set(), [[] for _ in self.report]
        for number, word, words in report:
            if not 0 < number < len(origin):
                raise Complaint(f"the program's report of {self.name} with questions has event {number}, which isn't there")
            if isinstance(origin[number], int):
                own[origin[number]].append((word, words))
            elif word == "show":
                found.append((*origin[number], answer_of(words)))
            else:
                moved.add(origin[number])
        if not moved:
            self.compare(own)
        return found, moved

    def compare(self, own):
        """What the program reports of the packet file has to be the report that was given."""
        for number, lines in enumerate(self.report):
            if [(line.word, line.words) for line in lines] != own[number]:
                raise Complaint(f"event {number} of {self.name}: the program reports {said(own[number])}, and the report has "
                                f"{said((line.word, line.words) for line in lines)}")

    def last_answer(self, program, number, discr):
        """The answer at the end of a copy that is cut off behind this event."""
        report = self.run(program, [*self.events[:number], f"show 0 {discr}"])
        answers = [words for at, word, words in report if at == number + 1 and word == "show"]
        if not answers:
            raise Complaint(f"the program doesn't answer `show 0 {discr}` behind event {number} of {self.name}")
        return answer_of(answers[0])

    def run(self, program, lines):
        """The lines of a report, as (number, word, words)."""
        text = replayed(program, "\n".join([*self.table, *lines, "end", ""]))
        rows = [line.split(" ") for line in text.split("\n")[:-1]]
        try:
            if rows[-1][0] != "done":
                raise ValueError
            return [(int(row[0]), row[1], row[2:]) for row in rows[:-1]]
        except (IndexError, ValueError):
            raise Complaint(f"the program gives no report of {self.name} with questions in it: {text[:80]!r}") from None


def said(lines):
    return "; ".join(" ".join([word, *words])[:80] for word, words in lines) or "nothing"


def answer_of(words):
    try:
        if len(words) != FIELDS:
            raise ValueError
        return Answer(words[1], int(words[2]), words[3], *map(int, words[4:]))
    except ValueError:
        raise Complaint(f"the program's answer isn't one of `show`: {' '.join(words)[:80]}") from None


def parts_of(choices):
    """The packet file that the arguments of a command line name, or those of a run's shards, each with its answers."""
    if choices.served:
        live, served = read_run(choices.file, choices.served)
        parts = [Part(packet_file(live, served, number), f"shard {number} of {choices.served}", report_text(shard), choices.served)
                 for number, shard in enumerate(served.shards)]
    else:
        text = text_of(choices.file)
        parts = [Part(text, choices.file, text_of(choices.report) if choices.report else replayed(choices.program, text),
                      choices.report or "the report")]
    for part in parts:
        part.ask(choices.program)
    return parts
