"""Whether a process's memory stays flat."""
import re
import statistics
import threading
from pathlib import Path

SHARE, LEAST = 0.05, 64  # of growth: this share, or so many KiB


def resident(pid):
    """KiB that a process has in memory."""
    return int(re.search(r"Rss:\s+(\d+)", Path(f"/proc/{pid}/smaps_rollup").read_text())[1])


def reserved(pid):
    """KiB of the data that a process asked for, touched or not."""
    return int(re.search(r"VmData:\s+(\d+)", Path(f"/proc/{pid}/status").read_text())[1])


class Memory(threading.Thread):
    """Looks at a process each second, until it ends or `verdict` is called."""

    def __init__(self, pid, measure=resident):
        super().__init__(daemon=True)
        self.pid, self.measure, self.seen, self.over = pid, measure, [], threading.Event()
        self.start()

    def run(self):
        while not self.over.wait(1):
            try:
                self.seen.append(self.measure(self.pid))
            except (OSError, TypeError):  # it has ended
                return

    def verdict(self):
        """Whether it is flat, and the medians of the second and the last quarter."""
        self.over.set()
        self.join()
        quarter = len(self.seen) // 4
        if quarter == 0:
            return False, "too few looks at the memory"
        second, last = (statistics.median(self.seen[start:start + quarter]) for start in (quarter, len(self.seen) - quarter))
        return last - second <= max(SHARE * second, LEAST), f"memory {second:.0f} KiB in the second quarter, {last:.0f} KiB in the last"
