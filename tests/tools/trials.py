"""What the tests of tests/tools stand on: how one is marked, what it finds, and the folder that it has."""
import contextlib
import resource
import shlex
import shutil
import subprocess
import sys
from pathlib import Path

TOP = Path(__file__).resolve().parent.parent.parent
sys.path.insert(0, str(TOP / "tests"))
from outside import Wrong, has, same

EXAMPLES = sorted((TOP / "examples").glob("*.script"))
TOOLS = sorted(path.name for path in (TOP / "tools").iterdir() if path.is_file() and not path.suffix)
TESTS = []


def test(*needs):
    """Marks a test, with the libraries and commands that it needs."""
    def mark(function):
        TESTS.append((function.__name__.replace("_", "-"), function, needs))
        return function
    return mark


class Place:
    """A folder for a test, with the program in it."""

    def __init__(self, folder, program, is_proved=True):
        self.folder, self.program, self.is_proved = Path(folder), program, is_proved

    def file(self, name, data):
        path = self.folder / name
        path.write_bytes(data if isinstance(data, bytes) else data.encode("utf-8"))
        return str(path)

    def tool(self, name, *words, status=0, text=b""):
        """What a tool wrote to standard output and to standard error."""
        more = ["--program", shlex.join(self.program)] if name not in ("capture", "script") else []
        ran = subprocess.run([TOP / "tools" / name, *map(str, words), *more], input=text, capture_output=True, timeout=1200)
        complaint = ran.stderr.decode("utf-8")
        if ran.returncode != status or "Traceback" in complaint:
            raise Wrong(f"tools/{name} {words}: status {ran.returncode}, and must be {status}: {complaint}")
        return ran.stdout.decode("ascii", "replace"), complaint

    @contextlib.contextmanager
    def within(self, most):
        """What takes more than so many seconds of processor time is wrong. The limit is one with the proved program: the unproved one has
        checks in it and is some ten times as slow, and of another nothing is known."""
        before = resource.getrusage(resource.RUSAGE_CHILDREN).ru_utime
        yield
        took = resource.getrusage(resource.RUSAGE_CHILDREN).ru_utime - before
        if self.is_proved and took > most:
            raise Wrong(f"it took {took:.0f} seconds of processor time, and {most} are the most")

    def replay(self, text):
        return subprocess.run([*self.program, "replay"], input=text.encode("ascii"), stdout=subprocess.PIPE).stdout.decode("ascii")

    def tree(self):
        """A copy of what bin/install needs, in which the program counts as proved."""
        top = self.folder / "tree"
        for part in ("bin", "tools", "man", "docs", "include", "daemon"):
            shutil.copytree(TOP / part, top / part, ignore=shutil.ignore_patterns("__pycache__"))
        shutil.copy(TOP / "LICENSE", top)
        (top / "stand-in").write_text(f'#!/bin/sh\nexec {shlex.join(self.program)} "$@"\n')
        (top / "bin/proved").write_text(f"#!/bin/sh\necho {shlex.quote(str(top / 'stand-in'))}\n")
        (top / "bin/library").write_text('#!/bin/sh\nmkdir -p "$1/lib"\necho a stand-in >"$1/lib/libbfdd.a"\n')
        (top / "bin/dplane").write_text('#!/bin/sh\necho a stand-in | tee "$1/bfdd-dplane" >"$1/bfdd-peer"\n')
        (top / "stand-in").chmod(0o755)
        return top
