"""The BFD packets of a capture, as fast as Python gives them: the usual frames are read in place, all others by frames.py.

Each packet is a tuple (number of its frame from 1, microseconds from the first frame, place, source, destination, TTL, source port,
destination port, kind of port, payload). Nothing here is proved.
"""
import collections
import struct

from frames import COOKED, COOKED_2, ETHERNET, KINDS, RAW, Capture, Unreadable, datagram_of

START = {ETHERNET: (14, 12), COOKED: (16, 14), COOKED_2: (20, 0)}  # where IP begins, and where its kind stands
UDP = struct.Struct(">HHH").unpack_from  # both ports and the length


class Read:
    """What is in a capture: its packets, and what was left out."""

    def __init__(self, file, name):
        self.capture = Capture(file, name)
        self.left_out, self.others, self.last = collections.Counter(), 0, 0

    def __iter__(self):
        start = None
        for number, frame in enumerate(self.capture, 1):
            start = frame.moment if start is None else start
            moment = max(frame.moment - start, 0)
            self.last = max(self.last, moment)
            try:
                packet = quick(frame) or slow(frame)
            except Unreadable as why:
                self.left_out[str(why)] += 1
                continue
            if packet:
                yield (number, moment, *packet)
            else:
                self.others += 1
        if self.capture.cut:
            self.left_out[f"what is behind: {self.capture.cut}"] += 1


def slow(frame):
    """A packet as frames.py reads it, or None."""
    found = datagram_of(frame)
    return found and (found.place, found.src, found.dst, found.ttl, found.source, found.target, found.port, found.payload)


def quick(frame):
    """The packet of a frame with one UDP packet in IPv4 without options, or in IPv6 without extension headers; None for all others."""
    data, link = frame.data, frame.link
    if link in START:
        at, kind = START[link]
        kind = data[kind:kind + 2]
        if kind != b"\x08\x00" and kind != b"\x86\xdd":
            return None
    elif link in RAW:
        at = 0
    else:
        return None
    if len(data) < at + 28:
        return None
    first = data[at]
    if first == 0x45:
        if data[at + 9] != 17 or data[at + 6] & 0x3F or data[at + 7]:
            return None
        udp, ttl, src, dst = at + 20, data[at + 8], data[at + 12:at + 16], data[at + 16:at + 20]
    elif first >> 4 == 6 and len(data) >= at + 48 and data[at + 6] == 17:
        udp, ttl, src, dst = at + 40, data[at + 7], data[at + 8:at + 24], data[at + 24:at + 40]
    else:
        return None
    source, port, size = UDP(data, udp)
    kind = KINDS.get(port)
    payload = data[udp + 8:udp + size]
    if kind is None or len(payload) != size - 8:
        return None
    place = (frame.place,) if link != COOKED_2 else (int.from_bytes(data[4:8], "big"),)
    return place, src, dst, ttl, source, port, kind, payload
