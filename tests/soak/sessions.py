"""The part dplane of tests/soak/run: sessions of bfdd-dplane over a lossy link, beside FRR's bfdd, with BIRD as the peer."""
import collections
import os
import re
import shutil
import signal
import subprocess
import sys
import time
from pathlib import Path

from hosts import FRR, Failure, Hosts, Network, Skip, far, near, prepare, ran, unprivileged, until
from memory import Memory

HERE = Path(__file__).resolve().parent
TOP = HERE.parent.parent
COUNT, MS, SEED = 40, 100, 5880
CHANGE = re.compile(r"session (\d+) to [0-9.]+(?: on \w+)?: (\w+) to (\w+), diagnostic (\d+)")
SIZE = 24  # bytes of a control packet without authentication

# What a host sends on a0, packet by packet, up to SIGTERM.
SENT = """import socket, sys
heard = socket.socket(socket.AF_PACKET, socket.SOCK_DGRAM, socket.htons(3))
heard.setsockopt(socket.SOL_SOCKET, 33, 1 << 25)  # SO_RCVBUFFORCE
heard.bind(("a0", 3))
print("ready", flush=True)
with open(sys.argv[1], "wb", buffering=0) as out:
    while True:
        ip, (_, _, kind, *_) = heard.recvfrom(2048)
        if kind == 4 and ip[0] == 0x45 and ip[9] == 17 and ip[22:24] == (3784).to_bytes(2, "big"):  # PACKET_OUTGOING
            out.write(ip[28:52])
"""


class LossyNetwork(Network):
    """The hosts a and b on one lossy link."""

    ADDRESSES = (("a", "a0", "10.9.0.1/24"), ("b", "b0", "10.9.0.2/24"))

    def __init__(self, seconds):
        self.holders = {name: subprocess.Popen(["unshare", "-n", "sleep", str(seconds)]) for name in "ab"}
        until(lambda: all(holder.poll() is not None or self.is_apart(holder) for holder in self.holders.values()), "network namespaces")
        if any(holder.poll() is not None for holder in self.holders.values()):
            self.close()
            raise Skip("no network namespace may be made")
        words = [sys.executable, HERE / "link.py", *(str(self.holders[name].pid) for name in "ab"), str(SEED)]
        self.link = subprocess.Popen(words, stdout=subprocess.PIPE, text=True)
        if self.link.stdout.readline() != "ready\n":
            self.close()
            raise Skip("no TAP device may be made")
        for name, interface, address in self.ADDRESSES:
            self.run(name, "ip", "link", "set", "lo", "up")
            self.run(name, "ip", "link", "set", interface, "up")
            self.run(name, "ip", "addr", "add", address, "dev", interface)

    def counts(self):
        """What the link did, which ends it."""
        self.link.terminate()
        return self.link.communicate()[0].strip()

    def close(self):
        if hasattr(self, "link"):
            self.link.kill()
            self.link.wait()
        super().close()


def hosts_of(room, network):
    """FRR's bfdd, our data plane with records, and BIRD, not started."""
    profile = f" profile soak\n  transmit-interval {MS}\n  receive-interval {MS}\n  detect-multiplier 3\n"
    peers = "".join(f" peer {far(n)} local-address {near(n)} interface a0\n  profile soak\n" for n in range(COUNT))
    neighbors = "".join(f'  neighbor {near(n)} dev "b0" local {far(n)};\n' for n in range(COUNT))
    it = Hosts(room, network, peers=profile + peers, bird_neighbors=neighbors)
    conf = it.room / "bird.conf"
    conf.write_text(conf.read_text().replace("300 ms", f"{MS} ms"))
    prepare(it, COUNT)
    return it


def start(it):
    it.start_bird()
    it.start_frr("zebra", "bfdd")
    words = [*unprivileged("frr"), it.program, "--log", "info", "--record", it.room / "records", it.socket]
    it.ours = it.network.start("a", *words, log=it.log)
    it.started.append(it.ours)


def changes_of(log):
    """The changes of each session: the state before, after, and the diagnostic."""
    found = collections.defaultdict(list)
    for discr, *change in CHANGE.findall(log.read_text()):
        found[int(discr)].append(tuple(change))
    return found


def up(it):
    return sum(changes[-1][1] == "Up" for changes in changes_of(it.log).values())


def run_for(it, seconds):
    """The sessions run over the lossy link, and at last over one that loses nothing. The memory's verdict."""
    until(lambda: len(changes_of(it.log)) == COUNT, f"{COUNT} sessions begin", 60)
    memory, end = Memory(it.ours.pid), time.monotonic() + seconds
    while time.monotonic() < end and it.ours.poll() is None:
        time.sleep(0.5)
    verdict = memory.verdict()
    if it.ours.poll() is not None:
        raise Failure(f"the program ended with status {it.ours.returncode}")
    it.network.link.send_signal(signal.SIGUSR1)
    until(lambda: up(it) == COUNT, f"{COUNT} sessions Up once the link loses nothing", 60)
    return verdict


def sent_by(path):
    """The packets that were sent, one after another, by My Discriminator."""
    sent, found = path.read_bytes(), collections.defaultdict(bytearray)
    for at in range(0, len(sent), SIZE):
        found[int.from_bytes(sent[at + 4:at + 8], "big")] += sent[at:at + SIZE]
    return found


def replays(program, folder):
    """What the replays of the records send and which changes they have, by session."""
    packets, changes = collections.defaultdict(bytearray), collections.defaultdict(list)
    for path in sorted(folder.glob("*.script")):
        with open(path) as script:
            report = subprocess.run([*program, "replay"], stdin=script, capture_output=True, text=True, timeout=600)
        if report.returncode:
            raise Failure(f"{path}: status {report.returncode}: {report.stdout[-200:]}{report.stderr[-200:]}")
        discr = int(path.stem.rpartition("-")[2])
        for words in map(str.split, report.stdout.splitlines()):
            if words[1] == "tx":
                packets[discr] += bytes.fromhex(words[3])
            elif words[1] == "state":
                changes[discr].append(tuple(words[3:6]))
    return packets, changes


def compare(name, got, wanted):
    """Each session's replay has what was seen."""
    if set(got) != set(wanted):
        raise Failure(f"{name}: the records are of the sessions {sorted(got)}, and these were seen: {sorted(wanted)}")
    wrong = [discr for discr in got if got[discr] != wanted[discr]]
    for discr in wrong[:1]:
        at = next((at for at, (one, other) in enumerate(zip(got[discr], wanted[discr])) if one != other), "the end")
        raise Failure(f"{name} of {len(wrong)} sessions differ; of session {discr} the replay has {len(got[discr])}, and "
                      f"{len(wanted[discr])} were seen; the first difference is at {at}")


def evidence(it, program, sent):
    packets, changes = replays(program, it.room / "records")
    compare("changes", changes, dict(changes_of(it.log)))
    compare("bytes sent", packets, sent_by(sent))
    sizes = sum(map(len, packets.values())) // SIZE, sum(map(len, changes.values()))
    return f"{sizes[0]} packets and {sizes[1]} changes, by the replays of the records of {len(changes)} sessions"


def judge(it):
    """One connection to FRR, each session Up after each Down: how often that was."""
    text, changes = it.log.read_text(), changes_of(it.log)
    connections = len(re.findall(r"connection \d+ to FRR is open", text))
    if connections != 1:
        raise Failure(f"{connections} connections to FRR: {[line for line in text.splitlines() if 'connection' in line][:5]}")
    downs = sum(was == "Up" and state == "Down" for all_of in changes.values() for was, state, _ in all_of)
    ups = sum(state == "Up" for all_of in changes.values() for _, state, _ in all_of)
    if ups != downs + COUNT:
        raise Failure(f"{downs} times Down and {ups} times Up")
    return f"{COUNT} sessions, {downs} times Down and {ups} times Up"


def build(room, library):
    if library:
        (room / "lib").mkdir()
        shutil.copy(Path(library) / "libbfdd.a", room / "lib")
    ran(TOP / "bin/dplane", room)


def soak(room, options):
    if os.geteuid() or not shutil.which("bird") or not (FRR / "bfdd").exists():
        raise Skip("this isn't root, or FRR or BIRD isn't there")
    build(room, options.library)
    network = LossyNetwork(60 * options.minutes + 900)
    it, sniffer = None, None
    try:
        it = hosts_of(room, network)
        words = network.inside("a", sys.executable, "-c", SENT, room / "sent")
        sniffer = subprocess.Popen(words, stdout=subprocess.PIPE, text=True)
        sniffer.stdout.readline()
        start(it)
        is_flat, memory = run_for(it, 60 * options.minutes)
        print(f"dplane: {memory}\ndplane: {judge(it)}", flush=True)
        it.processes["bfdd"].send_signal(signal.SIGSTOP)  # without a data plane it would send a packet for each session itself
        it.ours.terminate()
        if it.ours.wait(30):
            raise Failure(f"the program ended with status {it.ours.returncode} at SIGTERM")
        time.sleep(1)
        sniffer.terminate()
        print(f"dplane: the link: {network.counts()}\ndplane: {evidence(it, options.program, room / 'sent')}", flush=True)
        if not is_flat:
            raise Failure("its memory isn't flat")
    except Failure as why:
        raise Failure(f"{why}\n--- {it.log}\n" + "\n".join(it.log.read_text().splitlines()[-15:]) if it else why) from why
    finally:
        if sniffer:
            sniffer.kill()
            sniffer.wait()
        if it:
            it.close()
        network.close()
