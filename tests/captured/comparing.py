"""What a replay does in a daemon's place, beside what the daemon's log and its packets say."""
import collections
import datetime
import json
import re
import shlex
import subprocess
from pathlib import Path

from outside import TOP, Wrong
from texts import address_of, packet_of
from wire import Read

LATE = 0.15  # seconds that a log and a replay may differ
NAMES = {"admin-down": "AdminDown", "down": "Down", "init": "Init", "up": "Up"}
LOGGED = {"bird": re.compile(r"^(\S+ \S+) .*Session to \S+ changed state from (\w+) to (\w+)", re.M),
          "frr": re.compile(r"^(\S+ \S+) .*state-change: \[.*\] (\S+) -> (\S+)", re.M),
          "keepalived": re.compile(r"^\w+ (\w+ +\d+ \S+ \d+): .*Entering (Up|Down) state", re.M)}
DROPPED = {"bird": re.compile(r"^(\S+ \S+) .*(?:Bad packet from|Authentication failed for) \S+ - ([a-z ]*[a-z])", re.M),
           "frr": re.compile(r"^(\S+ \S+) .*control-packet: (.*) \[", re.M)}
BEGUN = {"bird": re.compile(r"^(\S+ \S+) .*Session to \S+ added", re.M), "frr": re.compile(r"^(\S+ \S+) .*session-new", re.M)}
# FRR drops these, where bfdd follows RFC 5880 section 6.8.6 (docs/FAULTS.md).
NOT_OVERRIDDEN = "'remote discriminator' is zero, not overridden"
# FRR's passive side sends a packet with it when it has lost its peer, which RFC 5880 section 6.8.7 forbids.
FORGOTTEN = "Down diag=1 your=0 "


def epoch(text):
    return datetime.datetime.fromisoformat(text.replace("/", "-")).timestamp()


def word_of(packet, intervals):
    """What tells a packet from the one before it, but P, F, the key, the number and the digest. The diagnostic counts in Down, where it
    isn't that of an end of AdminDown, and the intervals in Up."""
    diag = packet.diag if packet.state == "Down" and packet.diag != 7 else 0
    bits = "".join(bit for bit in "CDM" if packet.has(bit))
    return (f"{packet.state} diag={diag} your={packet.your} mult={packet.mult} auth={packet.auth} {bits}"
            + (f" tx={packet.tx} rx={packet.rx}" if intervals and packet.state == "Up" else ""))


def once(rows):
    """The rows without those that repeat the one before."""
    return [row for at, row in enumerate(rows) if not at or rows[at - 1] != row]


class Course:
    """A daemon's life and the replay in its place; `wrong` has the differences."""

    def __init__(self, lab, life, path):
        self.lab, self.life, self.path, self.wrong = lab, life, path, []
        with open(path, "rb") as file:
            packets = list(Read(file, str(path)))
            file.seek(24)
            seconds, micros = (int.from_bytes(file.read(4), "little") for _ in range(2))
        self.start = seconds + micros / 1e6
        self.until, begun, local = life.until - self.start, life.since - self.start, address_of(life.local)
        text = life.log.read_text()
        if life.kind in BEGUN:
            begun = min((moment for moment in map(self.second, BEGUN[life.kind].findall(text)) if moment > begun - 0.01), default=begun)
        self.since = max(begun, 0)
        self.sent = [(row[1] / 1e6, row[9]) for row in packets if row[3] == local and self.lasts(row[1] / 1e6) and row[8] != "echo"]
        self.logged = [row for row in self.changes(text) if self.lasts(row[0])]
        dropped = DROPPED[life.kind].findall(text) if life.kind in DROPPED else []
        self.dropped = [why for moment, why in dropped if self.lasts(self.second(moment)) and why != NOT_OVERRIDDEN]

    def lasts(self, moment):
        return self.since - 0.001 <= moment <= self.until

    def second(self, text):
        return epoch(text) - self.start

    def changes(self, text):
        """The changes of state in the log, seconds from the first frame. keepalived's has whole seconds and the new state alone."""
        if self.life.kind == "serve":
            return []
        rows = LOGGED[self.life.kind].findall(text)
        if self.life.kind == "keepalived":
            moments = [datetime.datetime.strptime(moment, "%b %d %H:%M:%S %Y").timestamp() - self.start for moment, _ in rows]
            return [(moment + 0.5, "-", state) for moment, (_, state) in zip(moments, rows)]
        return [(self.second(moment), NAMES.get(old, old), NAMES.get(new, new)) for moment, old, new in rows]

    # The replay.

    def parts(self):
        """From when to when replays go: keepalived has another discriminator after each Down, and a packet file has one."""
        begun = [at for (_, old), (at, new) in zip(self.sent, self.sent[1:]) if self.life.kind == "keepalived" and old[4:8] != new[4:8]]
        return zip([self.since, *begun], [*(moment + 0.05 for moment in begun), self.until])

    def replay(self):
        """The lines of the report: (moment, words)."""
        lines, self.events = [], 0
        for since, until in self.parts():
            place = f"{self.lab.folder}/{self.life.kind}-{self.life.local.replace(':', '-')}-{since:.3f}"
            words = ["--local", self.life.local, "--mode", self.life.mode, "--from", f"{since:.6f}", "--to", f"{until:.6f}"]
            if self.life.keys:
                Path(f"{place}.keys").write_text(self.life.keys)
                words += ["--keys", f"{place}.keys"]
            ran = subprocess.run([TOP / "tools/capture", *words, self.path, "-o", f"{place}.script"], capture_output=True, text=True)
            if ran.returncode:
                raise Wrong(f"tools/capture: {ran.stderr}")
            script = Path(f"{place}.script").read_text()
            report = subprocess.run([*self.lab.program, "replay"], input=script, capture_output=True, text=True).stdout
            Path(f"{place}.report").write_text(report)
            if not report.rpartition("\n")[0].rpartition("\n")[2].startswith("done "):
                raise Wrong(f"{place}.script: {report[-200:]}")
            events = [line.split() for line in script.splitlines() if line.split()[0] in ("rx", "tick", "cmd")]
            moments = [int(words[1]) / (1e3 if words[0] == "tick" else 1e6) for words in events]
            lines += [(moments[int(words[0]) - 1], words[1:]) for words in map(str.split, report.splitlines()) if words[0].isdigit()]
            self.events += len(events)
        return lines

    # The comparison.

    def differs(self, what, ours, theirs):
        if ours != theirs:
            self.wrong.append(f"{what}: bfdd {ours}, {self.life.kind} {theirs}")

    def compare(self):
        """Compares, and answers a line of numbers."""
        lines, kind = self.replay(), self.life.kind
        if kind == "serve":
            return self.compare_served(lines)
        states = [(moment, words[2], words[3]) for moment, words in lines if words[0] == "state"]
        if kind != "bird":  # (they log no other change)
            states = [row for row in states if "Up" in row[1:] and row[2] != "AdminDown"]
        if kind == "keepalived":
            states = [(moment, "-", new) for moment, _, new in states]
        self.differs("changes of state", [row[1:] for row in states], [row[1:] for row in self.logged])
        self.differs("late changes", [f"{ours[0]:.3f} for {theirs[0]:.3f}" for ours, theirs in zip(states, self.logged)
                                      if abs(ours[0] - theirs[0]) > LATE + (0.5 if kind == "keepalived" else 0)], [])
        drops = collections.Counter(words[1] for _, words in lines if words[0] == "drop")
        if kind == "frr":  # (it doesn't log what it drops while it is shut down)
            drops.pop("AdminDown", None)
        self.differs("dropped", sum(drops.values()), len(self.dropped))
        ours = [bytes.fromhex(words[2]) for _, words in lines if words[0] == "tx"]
        refused = sum(words[0] == "refuse" for _, words in lines)
        kinds = self.compare_sent(ours, [data for _, data in self.sent], not refused)
        return (f"{len(states)} changes of state, {len(self.sent)} packets sent of {kinds} kinds, dropped {dict(drops) or 0} as the log "
                f"{dict(collections.Counter(self.dropped)) or 0}" + (f", {refused} commands refused" if refused else ""))

    def compare_sent(self, ours, theirs, intervals):
        """The replay answers P as often, has the same keys, and sends what the daemon sends, in its order; besides only Init that the
        daemon had left before its next packet, and Down where it begins."""
        answers = [sum(packet_of(data).has("F") and packet_of(data).state != "AdminDown" for data in rows) for rows in (ours, theirs)]
        self.differs("packets with F", *answers)
        self.differs("keys", *(once([(packet_of(data).key, len(data)) for data in rows]) for rows in (ours, theirs)))
        mine, other = (once([word_of(packet_of(data), intervals) for data in rows]) for rows in (ours, theirs))
        if self.life.kind == "frr" and self.life.mode == "passive":
            other = [word for word in other if not word.startswith(FORGOTTEN)]
        while other and other[0].startswith("Down diag=0 your=0 "):
            other.pop(0)
        at = 0
        for word in mine:
            if at < len(other) and word == other[at]:
                at += 1
            elif not word.startswith(("Init ", "Down diag=0 ")) and (at == 0 or word != other[at - 1]):
                break
        else:
            word = "nothing"
        self.differs(f"what is sent, number {at + 1}", word if at < len(other) or word != "nothing" else "nothing",
                     other[at] if at < len(other) else "nothing")
        return len(other)

    def compare_served(self, lines):
        """The replay beside what `bfdd serve` wrote: each session's changes at their moments, the packets with F, and the drops."""
        served, moment = [], 0
        for words in map(str.split, self.life.log.read_text().splitlines()):
            if words[0] == "turn":
                moment = int(words[4]) / (1e3 if words[3] == "tick" else 1e6)
            elif words[0].isdigit():
                served.append((moment, words[1:]))
        counts = []
        for rows in lines, served:
            found = collections.Counter(words[1] for _, words in rows if words[0] == "drop")
            found.update(f"F of {words[1]}" for _, words in rows if words[0] == "tx" and bytes.fromhex(words[2])[1] & 16)
            counts.append(dict(found))
        self.differs("drops and packets with F", *counts)
        mine, theirs = (sorted((int(words[1]), moment, *words[2:5]) for moment, words in rows if words[0] == "state")
                        for rows in (lines, served))
        self.differs("changes of state", [(row[0], *row[2:]) for row in mine], [(row[0], *row[2:]) for row in theirs])
        begun = theirs[0][1] - mine[0][1]
        self.differs("late changes", [f"session {ours[0]}: {ours[1]:.3f} for {row[1] - begun:.3f}" for ours, row in zip(mine, theirs)
                                      if abs(ours[1] - row[1] + begun) > LATE], [])
        return f"{len(theirs)} changes of state of {len({row[0] for row in theirs})} sessions, {counts[1]}"


def findings(lab, path):
    """What tools/judge calls wrong: {(sender's address, rule): what was seen}. The keys are those of the first life."""
    words = []
    if keys := next((life.keys for life in lab.lives if life.kind == "serve"), lab.lives[0].keys):
        (lab.folder / "keys").write_text(keys)
        words = ["--keys", str(lab.folder / "keys")]
    found = {}
    for local in sorted({life.local for life in lab.lives}):
        ran = subprocess.run([TOP / "tools/judge", "--program", shlex.join(map(str, lab.program)), "--local", local, "--slack", "100",
                              *words, "--json", path], capture_output=True, text=True)
        if ran.returncode not in (0, 3):
            raise Wrong(f"tools/judge: {ran.stderr}")
        for row in json.loads(ran.stdout)["findings"]:
            if row["verdict"] == "wrong":
                found.setdefault((row["from"], row["rule"]), {})[row["frame"]] = row["seen"]
    return found
