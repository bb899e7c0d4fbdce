"""What tests/serve and tests/live stand on: a network of their own, the program serving on it, and TAP."""
import argparse
import contextlib
import fcntl
import functools
import os
import shlex
import shutil
import signal
import socket
import struct
import subprocess
import sys
import tempfile
import time
from pathlib import Path

TOP = Path(__file__).resolve().parent.parent
LINK_PORTS = (3784, 4784, 3785, 7784, 49152)  # what five links after number 0 hear, on one address
QUIET = 10  # seconds without a packet after which a link is over
SIOCGIFFLAGS, SIOCSIFFLAGS, IFF_UP = 0x8913, 0x8914, 1
IN_OWN = "BFDD_TESTS_IN_OWN_NETWORK"


class Wrong(Exception):
    """What a test found."""


class Late(Wrong):
    """What a test found that other work on the machine may have caused: something came late or not at all."""


class Skip(Exception):
    """Why a test can't be made here."""


def same(got, wanted, what):
    if got != wanted:
        raise Wrong(f"{what}: wanted\n{wanted}\nand got\n{got}")


def has(text, *parts):
    for part in parts:
        if part not in text:
            raise Wrong(f"wanted {part!r} in\n{text}")


def enter_own_network():
    """Starts this command again in a network namespace, where that may be had, so that no other program has a port of BFD."""
    if IN_OWN in os.environ:
        name = struct.pack("16sh", b"lo", 0)
        with socket.socket(socket.AF_INET, socket.SOCK_DGRAM) as any_socket:
            flags = struct.unpack("16sh", fcntl.ioctl(any_socket, SIOCGIFFLAGS, name)[:18])[1]
            fcntl.ioctl(any_socket, SIOCSIFFLAGS, struct.pack("16sh", b"lo", flags | IFF_UP))
        return
    for words in (["unshare", "-n"], ["unshare", "-rn"]):
        if shutil.which("unshare") and subprocess.run([*words, "true"], stderr=subprocess.DEVNULL).returncode == 0:
            os.environ[IN_OWN] = "1"
            os.execvp("unshare", [*words, sys.executable, *sys.argv])


def is_bound(address, port):
    """Whether some socket has this port of an address, by the kernel's table."""
    name = f"{int.from_bytes(socket.inet_aton(address), sys.byteorder):08X}:{port:04X}"
    return any(line.split()[1] == name for line in Path("/proc/net/udp").read_text().splitlines()[1:])


def until(condition, what, seconds=20):
    """Waits until something is so."""
    end = time.monotonic() + seconds
    while not condition():
        if time.monotonic() > end:
            raise Wrong(f"{what}: not within {seconds} seconds")
        time.sleep(0.005)


def doing(process):
    """What each thread of a process does, and what its links have waiting: for the story of a run that doesn't end."""
    def text(path):
        try:
            return Path(path).read_text().strip()
        except OSError as fault:
            return fault.strerror
    story = []
    for task in sorted(Path(f"/proc/{process}/task").glob("*")):
        words = text(task / "stat").rpartition(")")[2].split()
        story.append(f"thread {task.name}: state {words[0]}, {int(words[11]) + int(words[12])} ticks of processor time, in {text(task / 'wchan')}"
                     if len(words) > 12 else f"thread {task.name}: gone")
    return "\n".join([*story, "its links, by the kernel:", text(f"/proc/{process}/net/udp")])


class Run:
    """The program serving a script. Its moments count from shortly before `since`, a moment of the monotonic clock."""

    def __init__(self, program, folder, script, *words, stdout=None):
        self.folder, self.script = Path(folder), script
        (self.folder / "a.script").write_text(script)
        self.out = open(self.folder / "a.served", "wb") if stdout is None else stdout
        with open(self.folder / "a.script", "rb") as given:
            self.process = subprocess.Popen([*program, "serve", *map(str, words)], stdin=given, stdout=self.out,
                                            stderr=subprocess.PIPE)
        self.started = time.monotonic()
        self.since = None

    def wait_open(self, address="127.0.0.1", port=3784):
        """Waits until the last link that a test needs is open."""
        until(lambda: is_bound(address, port) or self.process.poll() is not None, f"{address} port {port} is bound", 60)
        if self.process.poll() is not None:
            raise Wrong(f"the program ended with status {self.process.returncode} before {address} port {port} was bound")
        self.since = time.monotonic()

    def end(self, seconds=90):
        """The status and what was written."""
        try:
            complaint = self.process.communicate(timeout=seconds)[1].decode("utf-8", "replace")
        except subprocess.TimeoutExpired:
            story = doing(self.process.pid)
            self.process.kill()
            raise Late(f"it didn't end within {seconds} seconds; {story}") from None
        self.out.close()
        if "Traceback" in complaint:
            raise Wrong(complaint)
        return self.process.returncode, (self.folder / "a.served").read_text() if (self.folder / "a.served").exists() else ""

    def stop(self):
        if self.process.poll() is None:
            self.process.kill()
            self.process.wait()

    def evidence(self, program, status=0):
        """What tools/evidence says of the text."""
        ran = subprocess.run([TOP / "tools/evidence", self.folder / "a.script", self.folder / "a.served", "-o", self.folder / "kept",
                              "--program", shlex.join(program)], capture_output=True, text=True, timeout=300)
        same((ran.returncode, "Traceback" in ran.stderr), (status, False), f"tools/evidence: {ran.stderr}")
        return ran.stderr


@functools.lru_cache(maxsize=1)
def turns(text):
    """The entries of a served text: (shard, caller, words of the event, report lines as lists of words)."""
    found, shard = [], 0
    for line in text.splitlines():
        words = line.split(" ")
        if words[0] == "shard":
            shard = int(words[1])
        elif words[0] == "turn":
            found.append((shard, int(words[2]), words[3:], []))
        elif words[0] != "served":
            found[-1][3].append(words[1:])
    return found


@functools.lru_cache(maxsize=1)
def busy(text):
    """The entries without those of ticks that gave nothing, which are nearly all."""
    return [entry for entry in turns(text) if entry[2][0] != "tick" or entry[3]]


@functools.lru_cache(maxsize=1)
def ticks(text):
    """The moments of the ticks, by shard and then in their order."""
    return [moment(event) for _, _, event, _ in turns(text) if event[0] == "tick"]


def moment(event):
    """When an event was, microseconds."""
    return int(event[1]) * (1000 if event[0] == "tick" else 1)


def changes(text, discr):
    """(moment, old, new, diagnostic) of the changes of a session's state."""
    return [(moment(event), words[2], words[3], int(words[4])) for _, _, event, lines in busy(text) for words in lines
            if words[:2] == ["state", str(discr)]]


def last_line(text):
    """ENTRIES, TXS and LOST."""
    words = text.splitlines()[-1].split(" ") if text else [""]
    if words[0] != "served" or not text.endswith("\n"):
        raise Wrong(f"no whole served text: it ends with {text[-80:]!r}")
    return list(map(int, words[1:]))


# TAP.

def proved():
    built = subprocess.run([TOP / "bin/proved"], stdout=subprocess.PIPE, text=True)
    return [built.stdout.strip()] if built.returncode == 0 else sys.exit(2)


def keep(folder, title, place):
    """Keeps the last script and served text of a test."""
    Path(place).mkdir(parents=True, exist_ok=True)
    for name in ("a.script", "a.served"):
        if (folder / name).exists():
            shutil.copy(folder / name, Path(place) / f"{title}.{name.removeprefix('a.')}")


def outcome(title, function, program, kept):
    """What is wrong, or None, and why it was skipped, or None."""
    with tempfile.TemporaryDirectory(prefix="bfdd-tests-") as folder, contextlib.ExitStack() as after:
        os.chmod(folder, 0o755)  # (daemons that drop their rights look into it)
        folder = Path(folder)
        try:
            function(program, folder, after)
        except Skip as why:
            return None, why
        except (Wrong, OSError, ValueError, IndexError, subprocess.SubprocessError) as wrong:
            return wrong, None
        finally:
            if kept:
                keep(folder, title, kept)
    return None, None


def found(wrong):
    """What is wrong, as lines of a comment."""
    return "#   " + (str(wrong) or repr(wrong)).replace("\n", "\n#   ")


def tried(title, function, program, kept, tries):
    """What the last of so many tries at most found, and which try that was. Only what came late is tried again, and that is printed."""
    for number in range(1, tries + 1):
        wrong, why = outcome(title if number == 1 else f"{title}.{number}", function, program, kept)
        if not isinstance(wrong, Late) or number == tries:
            return wrong, why, number
        print(f"# {title} is tried again, since\n{found(wrong)}", file=sys.stderr, flush=True)


def chosen(tests, words, lister):
    """Those whose names have one of the words. A word that no name has ends the command, and a line says which command lists the names."""
    unknown = [word for word in words if not any(word in title for title, _ in tests)]
    if unknown:
        print(f"{lister.split()[0]}: no test is named {' or '.join(unknown)}; `{lister}` lists them", file=sys.stderr)
        sys.exit(2)
    return [(title, function) for title, function in tests if not words or any(word in title for word in words)]


def main(name, tests, prepare=None, long=(), tries=1):
    """Runs the tests of a table: (name, function), and with the word --long those of `long` as well. Each has so many tries where it is
    Late."""
    parser = argparse.ArgumentParser(usage=f"{name} [--install] [--keep FOLDER] [--program COMMAND] {'[--long] ' if long else ''}[WORD..]")
    if long:
        parser.add_argument("--long", action="store_true", help="the long tests as well")
    parser.add_argument("--program", type=shlex.split, help="a command in place of the proved program")
    parser.add_argument("--keep", metavar="FOLDER", help="keep each test's script and served text there")
    parser.add_argument("--list", action="store_true", help="the names alone")
    parser.add_argument("--install", action="store_true", help="first install what Debian has of what is missing")
    parser.add_argument("words", nargs="*", help="parts of names")
    options = parser.parse_args()
    tests = [*tests, *long] if long and options.long else tests
    tests = chosen(tests, options.words, f"{name} --long --list" if long else f"{name} --list")
    if options.list:
        print("\n".join(title for title, _ in tests))
        return
    if IN_OWN not in os.environ and prepare:
        prepare(options.install)
    program = options.program or proved()
    enter_own_network()
    signal.signal(signal.SIGTERM, lambda *_: sys.exit(143))  # (so that daemons and namespaces are ended then too)
    failed = skipped = 0
    print(f"1..{len(tests)}", flush=True)
    for number, (title, function) in enumerate(tests, 1):
        wrong, why, at = tried(title, function, program, options.keep, tries)
        failed, skipped = failed + (wrong is not None), skipped + (why is not None)
        note = f" # SKIP {why}" if why is not None else f" # at try {at}" if at > 1 else ""
        print(f"{'ok' if wrong is None else 'not ok'} {number} - {title}{note}", flush=True)
        if wrong is not None:
            print(f"# {title}\n{found(wrong)}", file=sys.stderr, flush=True)
    print(f"# {name}: {len(tests) - failed - skipped} passed, {failed} failed, {skipped} skipped")
    sys.exit(1 if failed else 0)
