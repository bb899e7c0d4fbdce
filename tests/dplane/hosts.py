"""Hosts for tests/dplane/run and tests/dplane/measure: network namespaces, with FRR, BIRD and this repository's programs in them."""
import contextlib
import json
import os
import re
import shutil
import signal
import subprocess
import sys
import tempfile
import time
from pathlib import Path

FRR = Path("/usr/lib/frr")


class Skip(Exception):
    """The test can't be run here."""


class Failure(Exception):
    """What is wrong."""


def ran(*words, status=0):
    done = subprocess.run([str(word) for word in words], capture_output=True, text=True, timeout=120)
    if done.returncode != status:
        raise Failure(f"{' '.join(map(str, words))}: status {done.returncode}\n{done.stdout}{done.stderr}")
    return done.stdout


def until(holds, what, seconds=20.0):
    """Waits until it holds, and returns the seconds that took."""
    start = time.monotonic()
    while not holds():
        if time.monotonic() - start > seconds:
            raise Failure(f"not within {seconds} s: {what}")
        time.sleep(0.05)
    return time.monotonic() - start


# The network: a is FRR's host, b BIRD's, r a router between them.

class Network:
    """Three network namespaces, each held by a process: a and b on one link, and on one link each with r."""

    LINKS = (("a", "a0", "b", "b0"), ("a", "a1", "r", "ra"), ("b", "b1", "r", "rb"))
    ADDRESSES = (("a", "a0", "10.9.0.1/24 2001:db8:9::1/64 fe80::a/64"), ("b", "b0", "10.9.0.2/24 2001:db8:9::2/64 fe80::b/64"),
                 ("a", "a1", "10.9.1.1/24"), ("r", "ra", "10.9.1.254/24"), ("b", "b1", "10.9.2.2/24"), ("r", "rb", "10.9.2.254/24"))

    def __init__(self):
        self.holders = {name: subprocess.Popen(["unshare", "-n", "sleep", "900"]) for name in "abr"}
        until(lambda: all(holder.poll() is not None or self.is_apart(holder) for holder in self.holders.values()), "network namespaces")
        if any(holder.poll() is not None for holder in self.holders.values()):
            self.close()
            raise Skip("no network namespace may be made")
        for one, near, other, far in self.LINKS:
            self.run(one, "ip", "link", "add", near, "type", "veth", "peer", "name", far, "netns", self.holders[other].pid)
        for name in self.holders:
            self.run(name, "ip", "link", "set", "lo", "up")
        for name, interface, addresses in self.ADDRESSES:
            self.run(name, "sysctl", "-qw", f"net.ipv6.conf.{interface}.addr_gen_mode=1")
            self.run(name, "ip", "link", "set", interface, "up")
            for address in addresses.split():
                self.run(name, "ip", "addr", "add", address, "dev", interface, *(["nodad"] if ":" in address else []))
        self.run("r", "sysctl", "-qw", "net.ipv4.ip_forward=1")
        self.run("a", "ip", "route", "add", "10.9.2.0/24", "via", "10.9.1.254")
        self.run("b", "ip", "route", "add", "10.9.1.0/24", "via", "10.9.2.254")

    @staticmethod
    def is_apart(holder):
        """Whether its process is in a network namespace of its own."""
        return os.readlink(f"/proc/{holder.pid}/ns/net") != os.readlink("/proc/self/ns/net")

    def inside(self, name, *words):
        return ["nsenter", "-n", "-t", str(self.holders[name].pid), *[str(word) for word in words]]

    def run(self, name, *words):
        return ran(*self.inside(name, *words))

    def start(self, name, *words, log):
        with open(log, "a") as out:
            return subprocess.Popen(self.inside(name, *words), stdin=subprocess.DEVNULL, stdout=out, stderr=out)

    def close(self):
        for holder in self.holders.values():
            holder.kill()
            holder.wait()


def unprivileged(user):
    return ["setpriv", "--reuid", user, "--clear-groups", "--bounding-set", "-all", "--inh-caps", "-all", "--no-new-privs"]


BIRD = """router id 10.9.0.2;
protocol device {{}}
protocol static {{ ipv4; route 10.77.0.0/16 blackhole; }}
protocol bfd {{
  interface "b0" {{ min rx interval 300 ms; min tx interval 300 ms; multiplier {multiplier}; }};
  multihop {{ min rx interval 300 ms; min tx interval 300 ms; multiplier {multiplier}; }};
{neighbors}}}
template bgp peer {{ local as 65002; bfd on; connect retry time 1; error wait time 1, 2; connect delay time 1; hold time 180; }}
{protocols}
"""
FRR_CONF = """hostname dplane
bfd
 profile quick
  transmit-interval 300
  receive-interval 300
  detect-multiplier {multiplier}
{peers}
"""
FRR_BGP = """{ospf}router bgp 65001
 bgp router-id 10.9.0.1
 no bgp ebgp-requires-policy
 no bgp network import-check
{neighbors}
"""


class Hosts:
    """FRR with our data plane on a, BIRD on b. With `own`, FRR with its own BFD on b and nothing else; without `frr`, BIRD alone.
    `multiplier` is the Detect Mult of BIRD and of FRR's profile `quick`."""

    def __init__(self, room, network, neighbors="", peers="", protocols="", bird_neighbors="", ospf="", own=False, frr=True, multiplier=3):
        self.room, self.network, self.started, self.processes = Path(tempfile.mkdtemp(dir=room)), network, [], {}
        self.room.chmod(0o777)
        self.program = room / "bfdd-dplane"
        self.socket = f"unix:{self.room}/dplane.sock"
        (self.room / "frr.conf").write_text(FRR_CONF.format(peers=peers, multiplier=multiplier)
                                            + ("" if own else FRR_BGP.format(neighbors=neighbors, ospf=ospf)))
        (self.room / "bird.conf").write_text(BIRD.format(protocols=protocols, neighbors=bird_neighbors, multiplier=multiplier))
        self.log = self.room / "dplane.log"
        self.log.touch()
        self.ours = self.bird = None
        self.flapped = 0
        self.frr_host = "b" if own else "a"
        self.frr = {"zebra": ["-s", "90000000"], "bfdd": ["--bfdctl", self.room / "ctl.sock", *([] if own else ["--dplaneaddr", self.socket])]}
        self.frr |= {} if own else {"bgpd": ["-p", "179"]} | ({"ospfd": []} if ospf else {})
        self.has_bird, self.has_frr = not own, frr or own

    def start_frr(self, *names):
        common = ["--vty_socket", self.room, "-z", self.room / "zserv.api", "-f", self.room / "frr.conf"]
        for name in names or self.frr:
            words = [FRR / name, *common, "-i", self.room / f"{name}.pid", *self.frr[name]]
            self.processes[name] = self.network.start(self.frr_host, *words, log=self.room / f"{name}.log")
            self.started.append(self.processes[name])
            until(lambda: (self.room / f"{name}.vty").exists(), f"{name} is there")

    def start_ours(self, *words):
        """As FRR's user without a capability, as its unit of systemd has it."""
        self.ours = self.network.start("a", *unprivileged("frr"), self.program, "--log", "debug", *words, self.socket, log=self.log)
        self.started.append(self.ours)

    def start_bird(self):
        self.bird = self.network.start("b", "bird", "-f", "-c", self.room / "bird.conf", "-s", self.room / "bird.ctl", log=self.room / "bird.log")
        self.started.append(self.bird)

    def vtysh(self, *commands):
        return self.network.run(self.frr_host, "vtysh", "--vty_socket", self.room, *[word for command in commands for word in ("-c", command)])

    def bgp(self, peer):
        """Whether FRR's BGP with this peer is Established."""
        known = json.loads(self.vtysh("show bgp neighbors json"))
        return known.get(peer, {}).get("bgpState") == "Established"

    def bfd(self, peer):
        """What `show bfd peers json` has of this peer."""
        return next((it for it in json.loads(self.vtysh("show bfd peers json")) if it["peer"] == peer), {})

    def counters(self, peer):
        return next((it for it in json.loads(self.vtysh("show bfd peers counters json")) if it["peer"] == peer), {})

    def birdc(self, *words):
        return ran("birdc", "-s", self.room / "bird.ctl", *words)

    def bird_state(self, address):
        found = re.search(rf"^{re.escape(address)}\s+\S+\s+(\w+)", self.birdc("show", "bfd", "sessions"), re.M)
        return found[1] if found else None

    def flaps(self):
        """How often a session left Up since the last `comes_up`."""
        return len(re.findall(r": Up to ", self.log.read_text())) - self.flapped

    def close(self):
        for process in reversed(self.started):
            process.send_signal(signal.SIGCONT)
            process.terminate()
        for process in self.started:
            try:
                process.wait(10)
            except subprocess.TimeoutExpired:
                process.kill()
                process.wait()


@contextlib.contextmanager
def hosts(room, addresses=0, **texts):
    """`addresses` is how many of near and far the hosts have besides."""
    if os.geteuid() or not shutil.which("bird") or not (FRR / "bfdd").exists():
        raise Skip("this isn't root, or FRR or BIRD isn't there")
    network = Network()
    it = Hosts(room, network, **texts)
    prepare(it, addresses)
    try:
        if it.has_bird:
            it.start_bird()
        if it.has_frr:
            it.start_frr()
        if it.has_bird and it.has_frr:
            it.start_ours()
        yield it
    except Failure as fault:
        raise Failure(f"{fault}\n--- {it.log}\n" + "\n".join(it.log.read_text().splitlines()[-25:])) from fault
    finally:
        it.close()
        network.close()
    if it.ours and it.ours.returncode not in (0, -signal.SIGKILL):
        raise Failure(f"the program ended with status {it.ours.returncode}:\n" + "\n".join(it.log.read_text().splitlines()[-40:]))


NEIGHBOR = " neighbor {0} remote-as 65002\n neighbor {0} bfd\n neighbor {0} bfd profile quick\n neighbor {0} timers connect 1\n neighbor {0} timers 60 180\n"
IPV4 = {"neighbors": NEIGHBOR.format("10.9.0.2"),
        "protocols": "protocol bgp p from peer { neighbor 10.9.0.1 as 65001; direct; ipv4 { import all; export all; }; }"}


def near(n):
    return f"10.20.{n // 250}.{n % 250 + 1}"


def far(n):
    return f"10.20.{128 + n // 250}.{n % 250 + 1}"


def prepare(it, count):
    """Addresses, and neighbors that the system doesn't have to ask for."""
    for host, device, own, other in (("a", "a0", near, far), ("b", "b0", far, near)):
        link = json.loads(it.network.run("b" if host == "a" else "a", "ip", "-j", "link", "show", "b0" if host == "a" else "a0"))[0]["address"]
        lines = [line for n in range(count) for line in (f"addr add {own(n)}/16 dev {device}\n",
                                                         f"neigh add {other(n)} lladdr {link} dev {device} nud permanent\n")]
        (it.room / "batch").write_text("".join(lines))
        it.network.run(host, "ip", "-batch", it.room / "batch")


SNIFF = """import socket
heard = socket.socket(socket.AF_PACKET, socket.SOCK_DGRAM, socket.htons(3))
heard.setsockopt(socket.SOL_SOCKET, 33, 1 << 23)  # SO_RCVBUFFORCE
print("ready", flush=True)
while True:
    ip = heard.recv(2048)
    udp = ip[(ip[0] & 15) * 4:] if ip[0] >> 4 == 4 and ip[9] == 17 else ip[40:] if ip[0] >> 4 == 6 and ip[6] == 17 else b""
    if udp[2:4] in ((3784).to_bytes(2, "big"), (4784).to_bytes(2, "big")):
        print(udp[8:].hex(), flush=True)
"""


class Sniffer:
    """What goes over the links of a host: the payloads of control packets by My Discriminator, in their order."""

    def __init__(self, network, host):
        self.out = tempfile.TemporaryFile("w+")
        self.process = subprocess.Popen(network.inside(host, sys.executable, "-c", SNIFF), stdout=self.out)
        until(lambda: os.fstat(self.out.fileno()).st_size, "the sniffer is there")

    def ends(self):
        size = -1
        while size != (size := os.fstat(self.out.fileno()).st_size):  # until nothing more is written
            time.sleep(0.5)
        self.process.terminate()
        self.process.wait()
        self.out.seek(0)
        sent = {}
        for line in self.out.read().split()[1:]:
            sent.setdefault(int(line[8:16], 16), []).append(line)
        return sent


class Peer:
    """bfdd-peer on a host: its lines of JSON, and the packet files that it records."""

    def __init__(self, room, network, host, *words, records=True):
        self.room = Path(tempfile.mkdtemp(dir=room))
        self.room.chmod(0o777)
        self.log = self.room / "log"
        words = [*unprivileged("nobody"), room / "bfdd-peer", "--json", *(["--record", self.room] if records else []), *words]
        with open(self.room / "out", "w") as out, open(self.log, "w") as log:
            self.process = subprocess.Popen(network.inside(host, *words), stdout=out, stderr=log)

    def lines(self):
        return [json.loads(line) for line in (self.room / "out").read_text().splitlines()]

    def changes(self, peer):
        return [line for line in self.lines() if line["peer"] == peer and "cause" in line]

    def state(self, peer):
        return ([line["state"] for line in self.changes(peer)] or ["Down"])[-1]

    def comes_to(self, state, *peers, seconds=20):
        return until(lambda: all(self.state(peer) == state for peer in peers), f"{', '.join(peers)} {state}", seconds)

    def ends(self):
        self.process.send_signal(signal.SIGINT)
        if self.process.wait(10):
            raise Failure(f"bfdd-peer ended with status {self.process.returncode}: {self.log.read_text()[-3000:]}")


def seconds_of(process):
    """Processor seconds of a process, and its memory in kB."""
    nanoseconds = sum(int(path.read_text().split()[0]) for path in Path(f"/proc/{process.pid}/task").glob("*/schedstat"))
    return nanoseconds / 1e9, int(re.search(r"VmRSS:\s+(\d+)", Path(f"/proc/{process.pid}/status").read_text())[1])


def replayed(program, folder, sent):
    """Replays each record of a folder, which has to send what the sniffer saw. How many packets that was, and the changes by session."""
    count, changes = 0, {}
    for path in sorted(Path(folder).glob("*.script")):
        report = subprocess.run([*program, "replay"], stdin=open(path), capture_output=True, text=True, timeout=600)
        if report.returncode:
            raise Failure(f"{path}: status {report.returncode}: {report.stdout[-200:]}{report.stderr[-200:]}")
        lines = [line.split() for line in report.stdout.splitlines()]
        discr = int(path.read_text().split("p2p ")[1].split()[0])
        packets = [line[3] for line in lines if line[1] == "tx"]
        if packets != sent.get(discr, [])[:len(packets)]:
            raise Failure(f"{path}: the replay sends others than were sent: {len(packets)}, {len(sent.get(discr, []))}")
        del sent[discr][:len(packets)]
        changes.setdefault(discr, []).extend(line[3:6] for line in lines if line[1] == "state")
        count += len(packets)
    if any(sent.get(discr) for discr in changes):
        raise Failure("more was sent than is recorded")
    return count, changes
