"""The part serve of tests/soak/run: runs of `bfdd serve`, with peers behind a lossy relay."""
import collections
import socket
import time

from link import Lossy
from memory import Memory, reserved
from outside import Run, Wrong, changes, has, last_line, same, turns
from traffic import LOCAL, SINGLE, Peer

COUNT, SHARDS, SEED, LONGEST = 8, 2, 5881, 180  # seconds: a journal has 200,000 entries at most, and a tick comes each millisecond


def address(n):
    return f"127.0.0.{n + 1}"


class Relay:
    """The way between the program and the peers: a socket at each peer's address, and packets under way in both directions."""

    def __init__(self, run, lossy):
        self.run, self.lossy, self.sockets, self.given, self.got = run, lossy, {}, 0, 0
        for n in range(1, COUNT + 1):
            made = self.sockets[address(n)] = socket.socket(socket.AF_INET, socket.SOCK_DGRAM)
            made.bind((address(n), SINGLE))
            made.setsockopt(socket.IPPROTO_IP, socket.IP_TTL, 255)
            made.setblocking(False)

    def carry(self, peers):
        """Takes what the program sent, and gives what arrives now to the program and to the peers."""
        for name, made in self.sockets.items():
            try:
                while True:
                    self.lossy.put(name, made.recvfrom(512))
                    self.got += 1
            except BlockingIOError:
                pass
        for target, packet in self.lossy.due():
            if target in peers:
                peers[target].inbox.append(packet)
            elif target == "program":
                self.sockets[packet[1]].sendto(packet[0], (LOCAL, SINGLE))
                self.given += 1

    def close(self):
        for made in self.sockets.values():
            made.close()


class FarPeer(Peer):
    """A peer of session n at an address of its own, which sends and hears through the relay."""

    def __init__(self, relay, n):
        self.relay, self.own, self.inbox = relay, address(n), collections.deque()
        self.pause, self.keys, self.due = 0.09, False, 0
        self.fields = {"mult": 3, "tx": 100000, "rx": 100000, "my": 100 + n}
        self.state, self.your, self.seq, self.hears = "Down", 0, 0, self

    def recvfrom(self, _):
        if not self.inbox:
            raise BlockingIOError
        return self.inbox.popleft()

    def send(self, bits=""):
        self.relay.lossy.put("program", (self.payload(bits), self.own))


def script():
    table = [f"p2p {n} single 1 {LOCAL} {address(n)} active 100000 100000 3 0 {n}" for n in range(1, COUNT + 1)]
    return "\n".join(["bfd 1", *table, "run", "end", ""])


def carried(run, seed, seconds):
    """Peers and program exchange packets for so long, at last without a loss: the relay, and the memory's verdict."""
    relay = Relay(run, Lossy(seed))
    peers = {address(n): FarPeer(relay, n) for n in range(1, COUNT + 1)}
    memory, begun = Memory(run.process.pid, reserved), time.monotonic()
    try:
        while time.monotonic() - begun < seconds and run.process.poll() is None:
            relay.lossy.is_lossy = time.monotonic() - begun < seconds - 6
            relay.carry(peers)
            for peer in peers.values():
                peer.beat()
            time.sleep(0.002)
        verdict = memory.verdict()
        time.sleep(0.2)
        relay.carry({})  # what is still under way to the program
    finally:
        relay.close()
    return relay, verdict


def judge(text, relay, seconds):
    """What a run did: the journal has each packet, and each session is Up at the end of the relay."""
    entries, sent, lost = last_line(text)
    came = sum(event[0] == "rx" for _, _, event, _ in turns(text))
    same(came, relay.given, "packets in the journals, of those that the relay gave")
    ups = downs = 0
    for n in range(1, COUNT + 1):
        early = [change for change in changes(text, n) if change[0] < (seconds - 0.3) * 1e6]
        if not early or early[-1][2] != "Up":
            raise Wrong(f"session {n} isn't Up in the end: {early[-3:]}")
        ups += sum(new == "Up" for _, _, new, _ in early)
        downs += sum((old, new) == ("Up", "Down") for _, old, new, _ in early)
    same(ups, downs + COUNT, "times Up")
    return f"{entries} entries, {came} packets came and {sent} were sent, {downs} times Down and {ups} times Up"


def once(program, folder, seed, seconds):
    """One run of the program."""
    words = ("--workers", 1, "--shards", SHARDS, "--journal", 200000, "--ticks", 1000 * seconds, "--turns", 1000000)
    run = Run(program, folder, script(), *words)
    try:
        run.wait_open()
        relay, (is_flat, memory) = carried(run, seed, seconds - 1)
        status, text = run.end(600)  # to write the text is slow, without proofs and on a busy machine
        same(status, 0, "the status")
        found = judge(text, relay, seconds - 1)
        has(run.evidence(program), "all as the program has it")
        if not is_flat:
            raise Wrong(f"its memory isn't flat: {memory}")
    finally:
        run.stop()
    return f"{found}; {memory}; the relay {relay.lossy.counts}"


def soak(room, options):
    end, number = time.monotonic() + 60 * options.minutes, 0
    while (left := int(end - time.monotonic())) >= 30 or number == 0:
        number += 1
        print(f"serve: run {number}: {once(options.program, room, SEED + number, max(30, min(LONGEST, left)))}", flush=True)
