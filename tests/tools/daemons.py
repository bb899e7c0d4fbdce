"""Two BIRDs in network namespaces of their own, captured by tcpdump: what tests of explain, judge and probe stand on."""
import contextlib
import datetime
import os
import re
import shutil
import signal
import struct
import subprocess
import time

from trials import Wrong

FRR = "/usr/lib/frr/bfdd"
CHANGED = re.compile(r"^(\S+ \S+) .*Session to (\S+) changed state from (\w+) to (\w+)", re.MULTILINE)


class Net:
    """Two namespaces with 10.0.0.1 and 10.0.0.2 on a link between them."""

    def __init__(self, place):
        self.place, self.started = place, []
        self.names = {side: f"bfdd-tools-{os.getpid()}-{side}" for side in "ab"}

    def __enter__(self):
        a, b = self.names["a"], self.names["b"]
        for words in (["netns", "add", a], ["netns", "add", b],
                      ["link", "add", "xa", "netns", a, "type", "veth", "peer", "name", "xb", "netns", b]):
            self.ip(*words)
        for number, side in enumerate("ab", 1):
            for words in (["link", "set", "lo", "up"], ["link", "set", f"x{side}", "up"],
                          ["address", "add", f"10.0.0.{number}/24", "dev", f"x{side}"]):
                self.ip("-n", self.names[side], *words)
            # (BIRD leaves its source port to the kernel, and RFC 5881 section 4 asks for one from 49152 on)
            self.run(side, "sysctl", "-q", "-w", "net.ipv4.ip_local_port_range=49152 65535")
        return self

    def __exit__(self, *_):
        for name in self.names.values():
            for process in subprocess.run(["ip", "netns", "pids", name], capture_output=True, text=True).stdout.split():
                with contextlib.suppress(ProcessLookupError):
                    os.kill(int(process), signal.SIGKILL)  # (keepalived has a child of its own)
        for process in self.started:
            process.wait()
        for name in self.names.values():
            subprocess.run(["ip", "netns", "delete", name], stderr=subprocess.DEVNULL)

    def ip(self, *words):
        ran = subprocess.run(["ip", *words], capture_output=True, text=True)
        if ran.returncode:
            raise Wrong(f"ip {' '.join(words)}: {ran.stderr}")

    def run(self, side, *words):
        return subprocess.run(["ip", "netns", "exec", self.names[side], *words], capture_output=True, text=True, timeout=300)

    def start(self, side, *words, log=subprocess.DEVNULL):
        process = subprocess.Popen(["ip", "netns", "exec", self.names[side], *map(str, words)], stdout=log, stderr=log)
        self.started.append(process)
        return process

    def bird(self, side, more=""):
        """A BIRD with a session to the other side; its log is `bird-SIDE.log`."""
        folder, other = self.place.folder, 2 if side == "a" else 1
        conf = folder / f"bird-{side}.conf"
        conf.write_text(f'router id 10.0.0.{3 - other};\ntimeformat log iso long us;\nlog "{folder}/bird-{side}.log" all;\n'
                        f'protocol device {{}}\nprotocol bfd {{ debug all; interface "x{side}" {{ interval 300 ms; idle tx interval 1 s; '
                        f'multiplier 3; {more} }};\n'
                        f'neighbor 10.0.0.{other} dev "x{side}"; }}\n')
        return self.start(side, "bird", "-f", "-c", conf, "-s", folder / f"bird-{side}.ctl")

    def frr(self, side):
        """FRR's bfdd with a session over several hops to the other side."""
        number, folder = 1 if side == "a" else 2, self.place.folder / "frr"
        folder.mkdir()
        os.chmod(self.place.folder, 0o755)
        shutil.chown(folder, "frr", "frr")
        (folder / "conf").write_text(f"bfd\n peer 10.0.0.{3 - number} multihop local-address 10.0.0.{number}\n  receive-interval 100\n"
                                     "  transmit-interval 100\n !\n!\n")
        return self.start(side, FRR, "-u", "frr", "-g", "frr", "-f", folder / "conf", "-i", folder / "pid", "--bfdctl", folder / "control",
                          "-z", folder / "zebra", "--vty_socket", folder, "-P", "0")

    def keepalived(self, side):
        """A keepalived with a session to the other side; its log is `keepalived.log`."""
        number, folder = 1 if side == "a" else 2, self.place.folder
        (folder / "keepalived.conf").write_text(f"bfd_instance one {{\n  neighbor_ip 10.0.0.{3 - number}\n  source_ip 10.0.0.{number}\n"
                                                "  min_rx 300\n  min_tx 300\n  idle_tx 1000\n  multiplier 3\n}\n")
        with open(folder / "keepalived.log", "wb") as log:
            return self.start(side, "keepalived", "-n", "-l", "-D", "-f", folder / "keepalived.conf", "-p", folder / "keepalived.pid",
                              "-b", folder / "keepalived-bfd.pid", log=log)

    @contextlib.contextmanager
    def captured(self, side):
        """What passes a side's interface meanwhile, in `a.pcap`."""
        path = self.place.folder / "a.pcap"
        process = self.start(side, "tcpdump", "-n", "-i", f"x{side}", "-U", "--immediate-mode", "-Z", "root", "-w", path, "udp")
        wait_for(path.exists, "tcpdump")
        time.sleep(0.5)
        yield str(path)
        process.send_signal(signal.SIGINT)
        process.wait()

    def changes(self, side, path):
        """The changes of state in a BIRD's log: seconds from a capture's first frame, and the two states."""
        with open(path, "rb") as file:
            seconds, micros = struct.unpack("<II", file.read(32)[24:])
        text = (self.place.folder / f"bird-{side}.log").read_text()
        return [(datetime.datetime.fromisoformat(moment).timestamp() - seconds - micros / 1e6, old, new)
                for moment, _, old, new in CHANGED.findall(text)]


def wait_for(condition, what, seconds=20):
    end = time.monotonic() + seconds
    while not condition():
        if time.monotonic() > end:
            raise Wrong(f"{what}: not within {seconds} seconds")
        time.sleep(0.02)
