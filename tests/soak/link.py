"""Lossy links, from a fixed seed: what comes to an end is lost, delayed by up to 40 ms, which reorders, or repeated.

`link.py PID-A PID-B SEED` joins the network namespaces of two processes by the TAP devices a0 and b0, and runs until it is killed.
At SIGUSR1 it loses, delays and repeats no more.
"""
import ctypes
import fcntl
import heapq
import os
import random
import select
import signal
import struct
import sys
import time

CLONE_NEWNET, TUNSETIFF, IFF_TAP, IFF_NO_PI = 0x40000000, 0x400454CA, 0x0002, 0x1000
LOSS, LATE, TWICE, LONGEST = 0.10, 0.10, 0.05, 0.04  # shares of the packets, and seconds


class Lossy:
    """Packets under way, each with where it goes."""

    def __init__(self, seed):
        self.draw, self.waiting, self.number, self.is_lossy = random.Random(seed), [], 0, True
        self.counts = {"lost": 0, "late": 0, "twice": 0, "sent": 0}

    def count(self, share, name):
        found = self.is_lossy and self.draw.random() < share
        self.counts[name] += found
        return found

    def put(self, target, packet):
        if self.count(LOSS, "lost"):
            return
        for _ in range(1 + self.count(TWICE, "twice")):
            wait = self.draw.uniform(0.005, LONGEST) if self.count(LATE, "late") else 0
            heapq.heappush(self.waiting, (time.monotonic() + wait, self.number, target, packet))
            self.number += 1

    def due(self):
        """The packets that arrive now."""
        while self.waiting and self.waiting[0][0] <= time.monotonic():
            self.counts["sent"] += 1
            yield heapq.heappop(self.waiting)[2:]

    def pause(self, most=0.5):
        """Seconds until the next one arrives."""
        return max(0.0, min(most, self.waiting[0][0] - time.monotonic())) if self.waiting else most


def tap(pid, name):
    """Makes a TAP device in the network namespace of a process."""
    with open(f"/proc/{pid}/ns/net") as namespace:
        if ctypes.CDLL(None, use_errno=True).setns(namespace.fileno(), CLONE_NEWNET):
            raise OSError(ctypes.get_errno(), "setns")
    made = os.open("/dev/net/tun", os.O_RDWR | os.O_NONBLOCK)
    fcntl.ioctl(made, TUNSETIFF, struct.pack("16sH22x", name.encode(), IFF_TAP | IFF_NO_PI))
    return made


def forward(ends, lossy):
    other = {ends[0]: ends[1], ends[1]: ends[0]}
    while True:
        for end in select.select(ends, [], [], lossy.pause())[0]:
            try:
                while True:
                    lossy.put(other[end], os.read(end, 2048))
            except BlockingIOError:
                pass
        for end, frame in lossy.due():
            try:
                os.write(end, frame)
            except OSError:  # the device isn't up, or its queue is full: lost as well
                pass


def main(pid_a, pid_b, seed):
    lossy = Lossy(int(seed))
    signal.signal(signal.SIGUSR1, lambda *_: setattr(lossy, "is_lossy", False))
    ends = [tap(pid_a, "a0"), tap(pid_b, "b0")]
    print("ready", flush=True)
    signal.signal(signal.SIGTERM, lambda *_: (print(lossy.counts, flush=True), os._exit(0)))
    forward(ends, lossy)


if __name__ == "__main__":
    main(*sys.argv[1:])
