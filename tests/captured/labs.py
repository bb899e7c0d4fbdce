"""Two network namespaces with daemons in them, as tests/tools/daemons.py has them, and what is known of each daemon's life."""
import contextlib
import shutil
import signal
import subprocess
import time
import types

from daemons import FRR, Net, wait_for
from outside import Wrong

ZEBRA = "/usr/lib/frr/zebra"
waits = time.sleep


class Life:
    """A daemon from its start on, until it is killed or stopped. `local` is its address, and `keys` a file of keys for tools/capture."""

    def __init__(self, kind, process, log, local, keys="", mode="active"):
        self.kind, self.process, self.log, self.local, self.keys, self.mode = kind, process, log, local, keys, mode
        self.since, self.until = time.time(), None

    def ends(self, how=signal.SIGKILL):
        """Stops judging it; the signal ends it or stops it."""
        self.until = self.until or time.time()
        if how:
            self.process.send_signal(how)
        if how == signal.SIGKILL:
            self.process.wait()


class Lab(Net):
    """Two namespaces, with addresses of IPv6 and of several hops besides."""
    count = 0

    def __init__(self, folder, program):
        super().__init__(types.SimpleNamespace(folder=folder))
        Lab.count += 1
        self.names = {side: f"{name}-{Lab.count}".replace("tools", "captured") for side, name in self.names.items()}
        self.folder, self.program, self.lives, self.on_purpose = folder, program, [], set()

    def __enter__(self):
        super().__enter__()
        for own, other, side in ((1, 2, "a"), (2, 1, "b")):
            for words in (["address", "add", f"fd00::{own}/64", "dev", f"x{side}", "nodad"],
                          ["address", "add", f"10.0.{own}.1/32", "dev", "lo"],
                          ["route", "add", f"10.0.{other}.1", "via", f"10.0.0.{other}", "src", f"10.0.{own}.1"]):
                self.ip("-n", self.names[side], *words)
        return self

    def life(self, *words, **more):
        self.lives.append(Life(*words, **more))
        return self.lives[-1]

    @contextlib.contextmanager
    def captured(self, side, interface=None):
        """What passes an interface meanwhile, in `a.pcap`."""
        path = self.folder / "a.pcap"
        process = self.start(side, "tcpdump", "-n", "-i", interface or f"x{side}", "-U", "--immediate-mode", "-Z", "root", "-w", path,
                             "udp")
        wait_for(path.exists, "tcpdump")
        waits(0.5)
        yield path
        waits(0.2)
        process.send_signal(signal.SIGINT)
        process.wait()

    def configure_bird(self, side, options, hops="direct", rx=300, tx=300):
        """Writes a BIRD's configuration: its own address. `hops` is `direct`, `ipv6` or `multi`."""
        own, other = (1, 2) if side == "a" else (2, 1)
        local, remote = {"direct": (f"10.0.0.{own}", f"10.0.0.{other}"), "ipv6": (f"fd00::{own}", f"fd00::{other}"),
                         "multi": (f"10.0.{own}.1", f"10.0.{other}.1")}[hops]
        where, to = (("multihop", f"local {local} multihop on") if hops == "multi" else (f'interface "x{side}"', f'dev "x{side}"'))
        (self.folder / f"bird-{side}.conf").write_text(
            f'router id 10.0.0.{own};\ntimeformat log iso long us;\nlog "{self.folder}/bird-{side}.log" all;\nprotocol device {{}}\n'
            f"protocol bfd bfd1 {{ debug all; {where} {{ min rx interval {rx} ms; min tx interval {tx} ms; idle tx interval 1 s; "
            f"multiplier 3; {options} }};\nneighbor {remote} {to}; }}\n")
        return local

    def bird_begins(self, side, options="", keys="", mode="active", **more):
        local = self.configure_bird(side, options, **more)
        process = self.start(side, "bird", "-f", "-c", self.folder / f"bird-{side}.conf", "-s", self.folder / f"bird-{side}.ctl")
        return self.life("bird", process, self.folder / f"bird-{side}.log", local, keys=keys, mode=mode)

    def birdc(self, side, *words):
        return self.run(side, "birdc", "-s", self.folder / f"bird-{side}.ctl", *words).stdout

    def bird_changes(self, side, options="", **more):
        self.configure_bird(side, options, **more)
        said = self.birdc(side, "configure")
        if "Reconfigured" not in said and "in progress" not in said:
            raise Wrong(f"bird {side}: {said}")

    def frr_begins(self, side, peer, lines, local, mode="active"):
        folder = self.folder / f"frr-{side}"
        if not folder.exists():
            folder.mkdir()
            shutil.chown(folder, "frr", "frr")
        (folder / "conf").write_text(f"log file {folder}/log debugging\nlog timestamp precision 6\ndebug bfd peer\ndebug bfd network\nbfd\n"
                                     f" peer {peer}\n" + "".join(f"  {line}\n" for line in lines) + " !\n!\n")
        common = ["-u", "frr", "-g", "frr", "-z", folder / "zebra", "--vty_socket", folder, "-P", "0"]
        if not (folder / "zebra").exists():  # (by which bfdd knows interfaces)
            self.start(side, ZEBRA, *common, "-f", "/dev/null", "-i", folder / "zebra.pid", "-s", "90000000")
            wait_for((folder / "zebra").exists, "zebra")
        process = self.start(side, FRR, *common, "-f", folder / "conf", "-i", folder / "pid", "--bfdctl", folder / "control")
        return self.life("frr", process, folder / "log", local, mode=mode)

    def frr_changes(self, side, peer, *lines):
        words = ["configure terminal", "bfd", f"peer {peer}", *lines]
        ran = self.run(side, "vtysh", "--vty_socket", self.folder / f"frr-{side}", *[part for word in words for part in ("-c", word)])
        if ran.returncode:
            raise Wrong(f"vtysh: {ran.stdout}{ran.stderr}")

    def serves(self, script, keys, ticks):
        """`bfdd serve` in the namespace of a."""
        served = self.folder / "served"
        with open(script, "rb") as given, open(served, "wb") as out:
            process = subprocess.Popen(["ip", "netns", "exec", self.names["a"], *self.program, "serve", "--workers", "2", "--ticks", ticks],
                                       stdin=given, stdout=out)
        self.started.append(process)
        wait_for(lambda: ":4784" in self.run("a", "ss", "-lun").stdout, "serve listens")
        return self.life("serve", process, served, "127.0.0.1", keys=keys)
