"""Packet files, reports and control packets, as the tools read them. docs/FORMATS.md and docs/PROTOCOL.md say what they are.

Nothing here is proved. A packet file is assumed to be one that the program reads: only what a tool needs of a line is looked at.
"""
import argparse
import functools
import importlib
import ipaddress
import os
import re
import shlex
import subprocess
import sys
from pathlib import Path
from typing import NamedTuple

TOP = Path(__file__).resolve().parent.parent
STATES = ["AdminDown", "Down", "Init", "Up"]
PORTS = {"single": 3784, "multi": 4784, "echo": 3785, "sbfd": 7784, "answer": 49152}  # an answer goes back to the initiator's port
SOURCE_PORT = 49152
EVENTS = ("tick", "rx", "cmd", "show")
# In which order the lines of a packet file stand.
PLACES = {"bfd": 0, "run": 2, "end": 4, "": 5} | dict.fromkeys(EVENTS, 3) | dict.fromkeys(
    ("p2p", "sbfd", "reflector", "head", "tail", "auth", "key"), 1)
ECHO = bytes.fromhex("42464465")  # the first word of an echo packet
BITS = {"P": 0x20, "F": 0x10, "C": 0x08, "A": 0x04, "D": 0x02, "M": 0x01}
MOST_BYTES, LONGEST_LINE = 67108864, 4096  # of a packet file
LAST_TICK, LAST_MOMENT = 1152921504606846, 1152921504606846975
REFUSED = {7: f": the packet file has more than {MOST_BYTES:,} bytes", 11: ": out of memory"}  # what some statuses mean


class Complaint(Exception):
    """What a person reads in place of an answer."""


def library(name, package):
    """A module that Debian has in `package`. Where this Python lacks it and Debian's own has it, the tool starts again there."""
    try:
        return importlib.import_module(name)
    except ImportError:
        debian = "/usr/bin/python3"
        if os.path.realpath(sys.executable) != os.path.realpath(debian) and os.access(debian, os.X_OK):
            has = subprocess.run([debian, "-c", f"import {name}"], stderr=subprocess.DEVNULL).returncode == 0
            if has:
                os.execv(debian, [debian, *sys.argv])
        raise Complaint(f"this needs the Python library {name.split('.')[0]}: `apt-get install {package}`, "
                        f"or `pip install {name.split('.')[0]}`") from None


class Packet(NamedTuple):
    """The fields of a control packet (RFC 5880 section 4.1), intervals in microseconds."""
    version: int
    diag: int
    state: str
    flags: int
    mult: int
    my: int
    your: int
    tx: int
    rx: int
    auth: int | None  # Auth Type, and the two below, where there is a section that has them
    key: int | None
    seq: int | None

    def has(self, bit):
        return bool(self.flags & BITS[bit])


@functools.lru_cache(maxsize=4096)  # a long run has few payloads, again and again
def packet_of(payload):
    """The fields of a payload, or None where it is too short to have them."""
    if len(payload) < 24:
        return None
    words = [int.from_bytes(payload[at:at + 4], "big") for at in range(4, 20, 4)]
    section = payload[24:] if payload[1] & BITS["A"] else b""
    auth = section[0] if section else None
    key = section[2] if len(section) > 2 else None
    seq = int.from_bytes(section[4:8], "big") if auth in (2, 3, 4, 5) and len(section) >= 8 else None
    return Packet(payload[0] >> 5, payload[0] & 31, STATES[payload[1] >> 6], payload[1] & 63, payload[2], *words, auth, key, seq)


@functools.lru_cache(maxsize=1 << 16)
def address_of(text):
    """The bytes of an address as a packet file has it, or as people write it."""
    if len(text) == 32 and ":" not in text:
        return bytes.fromhex(text)
    return ipaddress.ip_address(text).packed


def spelled(address):
    """An address as a packet file has it."""
    return ".".join(map(str, address)) if len(address) == 4 else address.hex()


def is_group(address):
    """Whether an address is one of a group."""
    return address[0] >> 4 == 14 if len(address) == 4 else address[0] == 255


def shown(address):
    """An address as people write it."""
    return str(ipaddress.ip_address(address))


def number_of(text, most):
    """A number of a packet file or a report, from 0 to `most`."""
    if not text.isdigit() or len(text) > 20 or int(text) > most:
        raise ValueError
    return int(text)


def quoted(line):
    """What a message has of a line that is wrong: its beginning, and whatever of it can't be seen."""
    start = line[:80] if line.isprintable() else repr(line[:80])
    return start + (" (there is a carriage return in it)" if "\r" in line else "")


class Session(NamedTuple):
    """A session of the table. A tail's addresses are its group and its source, and a head's second one is its group."""
    discr: int
    kind: str         # `single` or `multi` of a p2p line, and else the line's word: `sbfd`, `head` or `tail`
    iface: int
    local: bytes
    remote: bytes
    head: int | None  # the discriminator of a tail's head

    def selectors(self):
        """What selects this session for packets that name no discriminator of it."""
        return (self.kind, self.iface if self.kind != "multi" else None, self.local, self.remote, self.head)

    def port(self):
        """The port that its control packets go to."""
        return PORTS[self.kind if self.kind in ("multi", "sbfd") else "single"]


class Arrival(NamedTuple):
    """What an `rx` line says."""
    port: str
    iface: int
    src: bytes
    dst: bytes
    ttl: int
    payload: bytes


class Event(NamedTuple):
    """An event line: its word, when it takes effect in microseconds, and what it is about."""
    word: str
    moment: int
    discr: int | None  # the session, where the line names one
    arrival: Arrival | None
    words: list


class Script:
    """A packet file: its sessions by discriminator, its reflectors, and its events in their order."""

    def __init__(self, text, name):
        self.sessions, self.reflectors, self.events, self.last_tick = {}, set(), [], 0
        self.auth = {}  # the Auth Type of a session, by its discriminator
        self.place = 0  # that of the last line's word
        for number, line in enumerate(text.split("\n"), 1):
            try:
                if len(line) > LONGEST_LINE or not line.isprintable():
                    raise ValueError
                self.take(line.split(" "))
            except (ValueError, IndexError):
                raise Complaint(f"{name}: line {number} is in no packet file: {quoted(line)}") from None
        self.by_addresses = {session.selectors(): session.discr for session in self.sessions.values()
                             if session.kind in ("single", "multi", "tail")}

    def take(self, fields):
        word = fields[0]
        if PLACES.get(word, -1) < self.place or word in EVENTS and self.place < PLACES["run"]:
            raise ValueError
        self.place = PLACES[word]
        if word in ("p2p", "sbfd", "head", "tail"):
            discr, at = number_of(fields[1], 2**32 - 1), 2 if word == "head" else 3
            head = number_of(fields[2], 2**32 - 1) if word == "tail" else None
            self.sessions[discr] = Session(discr, fields[2] if word == "p2p" else word, number_of(fields[at], 65535),
                                           address_of(fields[at + 1]), address_of(fields[at + 2]), head)
        elif word == "reflector":
            self.reflectors.add(number_of(fields[1], 2**32 - 1))
        elif word in EVENTS:
            self.events.append(self.event_of(fields))
        elif word == "auth":
            self.auth[number_of(fields[1], 2**32 - 1)] = number_of(fields[2], 255)
        elif word == "key":
            number_of(fields[1], 2**32 - 1)

    def event_of(self, fields):
        """The event of a line, which is behind those that were asked for before."""
        word = fields[0]
        if word == "tick":
            self.last_tick = max(self.last_tick, number_of(fields[1], LAST_TICK) * 1000)
            return Event(word, self.last_tick, None, None, fields)
        if word == "rx":
            arrival = Arrival(fields[2], number_of(fields[3], 65535), address_of(fields[4]), address_of(fields[5]),
                              number_of(fields[6], 255), bytes.fromhex(fields[7].replace("-", "")))
            return Event(word, self.effective(fields[1]), None, arrival, fields)
        return Event(word, self.effective(fields[1]), number_of(fields[2], 2**32 - 1), None, fields)

    def may_have(self, word, words):
        """Whether a report may have such a line, by what a tool looks at."""
        if word in ("drop", "refuse"):
            return len(words) == 1 and words[0].isalpha()
        discr = int(words[0]) if words[0].isdigit() and len(words[0]) <= 10 else None
        if word == "tx":
            known = discr in self.sessions or discr in self.reflectors
            return known and len(words) == 2 and len(words[1]) in range(2, 513, 2) and not words[1].strip("0123456789abcdef")
        names, numbers = {"show": ((1, 3), (2, 4, 5, 6, 7, 8, 9)), "state": ((1, 2), (3,))}.get(word, ((), ()))
        return (discr in self.sessions and len(words) == 1 + len(names) + len(numbers) > 1 and all(words[at] in STATES for at in names)
                and all(words[at].isdigit() and len(words[at]) <= 20 for at in numbers))

    def effective(self, moment):
        """A moment before the last tick counts as that tick's."""
        return max(number_of(moment, LAST_MOMENT), self.last_tick)

    def session_of(self, event):
        """The discriminator of the session that an event is of, or None where it is of all or of none."""
        return self.named(event.arrival) if event.arrival else event.discr

    def named(self, came):
        """The session that a packet names."""
        packet = packet_of(came.payload)
        if came.port == "echo":
            return self.of_kind(int.from_bytes(came.payload[4:8], "big"), "single")
        if came.port == "single" and packet and packet.has("M"):
            return self.by_addresses.get(("tail", came.iface, came.dst, came.src, packet.my))
        kind = {"answer": "sbfd", "sbfd": "reflector"}.get(came.port, came.port)
        if packet and packet.your:
            return self.of_kind(packet.your, kind)
        return self.by_addresses.get((kind, came.iface if kind == "single" else None, came.dst, came.src, None))

    def of_kind(self, discr, kind):
        session = self.sessions.get(discr)
        return discr if session and session.kind == kind else None


class Line(NamedTuple):
    """A line of a report: the event's number, and the words behind it."""
    number: int
    word: str
    words: list


def refusal_of(report):
    """The line and the fault of a report that refuses its packet file, or None."""
    bad = re.match(r"bad (\d{1,9}) (\w+)\n", report)
    return (int(bad[1]), bad[2]) if bad else None


def report_of(text, script, name):
    """The lines of a report of this packet file, without its last."""
    if refusal := refusal_of(text):
        raise Complaint(f"the packet file isn't in the grammar: line {refusal[0]}, {refusal[1]}; bin/bfdd says more at a terminal")
    lines = []
    for at, line in enumerate(text.split("\n")[:-1], 1):
        try:
            fields = line.split(" ")
            if fields[0] == "done":
                check_end(fields, script, name)
                return lines
            number = number_of(fields[0], len(script.events))
            if number == 0 or len(fields) < 3 or not line.isprintable() or not script.may_have(fields[1], fields[2:]):
                raise ValueError
        except ValueError:
            raise Complaint(f"{name}: line {at} is in no report of this packet file: {quoted(line)}") from None
        lines.append(Line(number, fields[1], fields[2:]))
    raise Complaint(f"{name} isn't a whole report: its last line `done ..` is missing, or cut off")


def check_end(fields, script, name):
    """The last line of a report has to count the events of its packet file."""
    if len(fields) != 4:
        raise ValueError
    events, *_ = [number_of(field, LAST_MOMENT) for field in fields[1:]]
    if events != len(script.events):
        raise Complaint(f"{name} is the report of another packet file: it has {events} events, and the file has {len(script.events)}")


def happenings(script, report):
    """Each event with the lines that the report has of it."""
    lines = {}
    for line in report:
        lines.setdefault(line.number, []).append(line)
    return ((event, lines.get(number, ())) for number, event in enumerate(script.events, 1))


def text_of(path):
    """The text of a file; `-` is standard input."""
    try:
        data = standard_input().read() if path == "-" else Path(path).read_bytes()
    except OSError as fault:
        raise Complaint(f"{path}: {fault.strerror}") from None
    if not data:
        raise Complaint(f"{path}: the file is empty")
    try:
        return data.decode("ascii")
    except UnicodeDecodeError as fault:
        raise Complaint(f"{path}: byte {fault.start + 1} is no ASCII, so it's no text of bfdd") from None


def moment_of(text):
    """A moment of the command line: seconds."""
    try:
        value = float(text)
    except ValueError:
        value = -1
    if not 0 <= value < 1e12:
        raise argparse.ArgumentTypeError(f"a number of seconds from 0 to below 1,000,000,000,000 is required, and {text!r} was given")
    return value


def standard_input():
    """Its bytes, where it isn't closed."""
    if sys.stdin is None:
        raise Complaint("standard input is closed")
    return sys.stdin.buffer


def standard_output():
    """Its bytes, where it isn't closed."""
    if sys.stdout is None:
        raise Complaint("standard output is closed")
    return sys.stdout.buffer


def replayed(program, text):
    """The report that a program writes for a packet file."""
    try:
        ran = subprocess.run([*program, "replay"], input=text.encode("ascii"), stdout=subprocess.PIPE)
    except OSError as fault:
        raise Complaint(f"{' '.join(program)} can't be run: {fault.strerror}") from None
    os.environ["BFDD_NOTED"] = "yes"  # (bin/try needs to say once that nothing is proved)
    if ran.returncode not in (0, 2):
        raise Complaint(f"{' '.join(program)} replay ended with status {ran.returncode}{REFUSED.get(ran.returncode, '')}")
    try:
        return ran.stdout.decode("ascii")
    except UnicodeDecodeError:
        raise Complaint(f"{' '.join(program)} replay wrote what is no ASCII, so it's no report") from None


def command(text):
    """A command as it is given to --program."""
    words = shlex.split(text)
    if not words:
        raise ValueError
    return words


def add_replay_arguments(parser):
    """The arguments of a tool that looks at a packet file and its report."""
    parser.add_argument("file", metavar="FILE", help="a packet file; - is standard input")
    either = parser.add_mutually_exclusive_group()
    either.add_argument("--report", metavar="REPORT", help="its report; without, the file is replayed")
    either.add_argument("--served", metavar="SERVED", help="the served text of a run whose script is FILE")
    parser.add_argument("--program", type=command, metavar="COMMAND", default=[str(TOP / "bin/bfdd")],
                        help="what replays it, in place of bin/bfdd")


def script_and_happenings(choices):
    """The packet file that these arguments name, and each of its events with what a report has of it, one after another."""
    if choices.served:
        from served import read_run, whole_run
        return whole_run(*read_run(choices.file, choices.served))
    text = text_of(choices.file)
    script = Script(text, choices.file)
    report = text_of(choices.report) if choices.report else replayed(choices.program, text)
    return script, happenings(script, report_of(report, script, choices.report or "the report"))


def tool_name():
    """The name that a person called: `tools/capture`, or `bfdd-capture` where it is installed."""
    name = os.path.basename(sys.argv[0])
    return name if name.startswith("bfdd-") else f"tools/{name}"


def run_tool(work):
    """Runs a tool: 0, or 1 with what is wrong on standard error. With --version it says what bin/bfdd says."""
    if sys.argv[1:] == ["--version"]:
        os.execv(TOP / "bin/bfdd", ["bfdd", "--version"])
    sys.stderr = sys.stderr or open(os.devnull, "w")
    try:
        finish(work)
    except Complaint as fault:
        fail(str(fault))
    except BrokenPipeError:
        fail("")
    except OSError as fault:
        fail(f"{fault.filename or 'standard output'}: {fault.strerror}")
    except KeyboardInterrupt:
        sys.exit(130)


def finish(work):
    """Does a tool's work, or writes its help, until standard output has taken all of it."""
    try:
        work()
    except SystemExit as ended:
        if ended.code:
            raise
    if sys.stdout and not sys.stdout.closed:
        sys.stdout.flush()


def fail(why):
    """Ends a tool with status 1. What standard output or standard error hasn't taken by then goes nowhere."""
    try:
        if why:
            print(f"{tool_name()}: {why}", file=sys.stderr, flush=True)
    except OSError:
        os.dup2(os.open(os.devnull, os.O_WRONLY), sys.stderr.fileno())
    if sys.stdout and not sys.stdout.closed:
        os.dup2(os.open(os.devnull, os.O_WRONLY), sys.stdout.fileno())
    sys.exit(1)
