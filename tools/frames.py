"""Captures, frame by frame: pcap and pcapng files, and the UDP packets of BFD's ports in their frames.

Files are read here, since dpkt's reader of pcapng knows one interface alone and its readers don't say where a file was cut off;
IP and UDP are read by dpkt.
"""
import gzip
import re
import struct
import zlib
from typing import NamedTuple

from texts import Complaint, PORTS, library

dpkt = library("dpkt", "python3-dpkt")

ETHERNET, COOKED, COOKED_2 = 1, 113, 276
RAW = {12, 14, 101, 228, 229}
LOOPBACK = {0, 108}
TAGS = {0x8100, 0x88A8, 0x9100}
SOME_PORT = re.compile(rb"\x0e[\xc8\xc9]|\x12\xb0|\x1a\x80|\x1e\x68")  # 3784, 3785, 4784, 6784, 7784
KINDS = {6784: "aggregate"} | {port: kind for kind, port in PORTS.items() if kind != "answer"}
HEADLESS = "frames whose UDP header is cut off"
SHORT = "packets that the capture cut short (its snap length)"
GZIP = b"\x1f\x8b"
LARGEST = 1 << 26  # a block beyond this is no packet


class Frame(NamedTuple):
    moment: int  # microseconds since 1970
    link: int    # the link type
    place: int   # the interface, where the file distinguishes them
    data: bytes
    size: int    # how many bytes it had on the wire


class Datagram(NamedTuple):
    """A UDP packet: the interface and the VLANs that it was seen on, and what is of its headers and payload."""
    place: tuple
    src: bytes
    dst: bytes
    ttl: int
    port: str  # the kind of port, as an `rx` line names it, or `aggregate`
    payload: bytes
    source: int = 0  # the source port
    target: int = 0  # the destination port


class Unreadable(Exception):
    """Why a frame that has one of the ports gives no packet."""


class Capture:
    """The frames of a file; `cut` says afterwards where it ended too early."""

    def __init__(self, file, name):
        self.file, self.name, self.cut = file, name, None
        self.count = 0
        if file.peek(2)[:2] == GZIP:
            self.file = gzip.GzipFile(fileobj=file)
        self.start = self.read(4)
        if not self.start:
            raise Complaint(f"{name}: the file is empty" if not self.cut else f"{name}: {self.cut}")

    def __iter__(self):
        if self.start == b"\x0a\x0d\x0d\x0a":
            frames = self.pcapng()
        elif self.start in PCAP:
            frames = self.pcap(*PCAP[self.start])
        else:
            raise Complaint(f"{self.name} is no capture that is read here: pcap and pcapng are, and it begins with "
                            f"{self.start.hex()}")
        for frame in frames:
            self.count += 1
            yield frame

    def read(self, size):
        """So many bytes, or fewer where the file ends before, as where what gzip compressed is cut off or damaged."""
        data = b""
        try:
            while len(data) < size and (part := self.file.read1(size - len(data))):
                data += part
        except (EOFError, zlib.error, gzip.BadGzipFile):
            self.cut = f"the file is cut off or damaged behind frame {self.count}"
        return data

    def take(self, size):
        """So many bytes, or None where the file ends before them."""
        data = self.read(size) if size <= LARGEST else b""
        if len(data) == size:
            return data
        if data or size > LARGEST:
            self.cut = f"the file is cut off or damaged behind frame {self.count}"
        return None

    def pcap(self, order, per_second):
        head = self.take(20)
        if head is None:
            raise Complaint(f"{self.name}: the file is cut off in its header")
        link = struct.unpack(order + "I", head[16:])[0] & 0xFFFF
        unpack = struct.Struct(order + "IIII").unpack
        while head := self.take(16):
            seconds, part, size, whole = unpack(head)
            data = self.take(size)
            if data is None:
                self.cut = f"the file is cut off or damaged behind frame {self.count}"
                return
            yield Frame(seconds * 1000000 + part * 1000000 // per_second, link, 0, data, whole)

    def pcapng(self):
        order, interfaces, first = "<", [], self.start
        while head := (first + (self.take(4) or b"")) if first else self.take(8):
            if len(head) < 8:
                raise Complaint(f"{self.name}: the file is cut off in its header")
            kind, first = head[:4], b""
            if kind == b"\x0a\x0d\x0d\x0a":
                magic = self.take(4) or b""
                order, interfaces = (">" if magic == b"\x1a\x2b\x3c\x4d" else "<"), []
                body = self.take(max(struct.unpack(order + "I", head[4:])[0] - 12, 0))
            else:
                body = self.take(max(struct.unpack(order + "I", head[4:])[0] - 8, 0))
            kind = struct.unpack(order + "I", kind)[0]
            if body is None or kind == 1 and len(body) < 12:
                self.cut = f"the file is cut off or damaged behind frame {self.count}"
                return
            if kind == 1:
                interfaces.append(interface_of(body, order))
            elif kind in (2, 6):
                frame = frame_of(kind, body, order, interfaces)
                if frame:
                    yield frame


PCAP = {b"\xd4\xc3\xb2\xa1": ("<", 10**6), b"\xa1\xb2\xc3\xd4": (">", 10**6),
        b"\x4d\x3c\xb2\xa1": ("<", 10**9), b"\xa1\xb2\x3c\x4d": (">", 10**9)}


def interface_of(body, order):
    """The link type, the ticks a second, and the seconds to be added, of an Interface Description Block."""
    link, per_second, offset, at = struct.unpack_from(order + "H", body)[0], 10**6, 0, 8
    while at + 4 <= len(body) - 4:
        code, size = struct.unpack_from(order + "HH", body, at)
        value = body[at + 4:at + 4 + size]
        if code == 9 and size == 1:
            per_second = 2 ** (value[0] & 127) if value[0] & 128 else 10 ** value[0]
        elif code == 14 and len(value) == size == 8:
            offset = struct.unpack(order + "q", value)[0]
        at += 4 + (size + 3) // 4 * 4
    return link, per_second, offset


def frame_of(kind, body, order, interfaces):
    """The frame of an Enhanced Packet Block, or of the older Packet Block."""
    if len(body) < 24:
        return None
    place, high, low, size = struct.unpack_from(order + ("IIII" if kind == 6 else "HxxIII"), body)
    if place >= len(interfaces):
        return None
    link, per_second, offset = interfaces[place]
    moment = offset * 1000000 + (high << 32 | low) * 1000000 // per_second
    return Frame(moment, link, place, body[20:20 + size], struct.unpack_from(order + "I", body, 16)[0])


def network_of(frame):
    """The VLANs and the IP packet of a frame, and whether it is IPv6; None where it has none."""
    data, tags = frame.data, ()
    if frame.link in RAW:
        return tags, data, data[:1] and data[0] >> 4 == 6
    if frame.link in LOOPBACK:
        return tags, data[4:], data[4:5] and data[4] >> 4 == 6
    at, kind = {ETHERNET: (14, 12), COOKED: (16, 14), COOKED_2: (20, 0)}[frame.link]
    kind = int.from_bytes(data[kind:kind + 2], "big")
    while kind in TAGS and len(data) >= at + 4:
        tags += (int.from_bytes(data[at:at + 2], "big") & 4095,)
        kind, at = int.from_bytes(data[at + 2:at + 4], "big"), at + 4
    return (tags, data[at:], kind == 0x86DD) if kind in (0x0800, 0x86DD) else None


def datagram_of(frame):
    """The UDP packet of a frame, or None where it has none for a port of BFD."""
    if frame.link not in RAW | LOOPBACK | {ETHERNET, COOKED, COOKED_2}:
        raise Unreadable(f"frames of link type {frame.link}, which isn't read here")
    if len(frame.data) >= frame.size and not SOME_PORT.search(frame.data, 0, 256):
        return None
    network = network_of(frame)
    if not network:
        return None
    tags, data, is_ipv6 = network
    try:
        ip = (dpkt.ip6.IP6 if is_ipv6 else dpkt.ip.IP)(data)
        is_udp = ip.p == 17  # (of IPv6 it is there where the extension headers could be read)
    except (dpkt.dpkt.Error, struct.error, ValueError, IndexError, KeyError, AttributeError):
        if len(frame.data) < frame.size and data[6 if is_ipv6 else 9:][:1] == bytes([17]):
            raise Unreadable(HEADLESS) from None
        raise Unreadable("frames whose IP packet can't be read") from None
    if not is_udp:
        return None
    if (44 in ip.extension_hdrs) if is_ipv6 else (ip.mf or ip.offset):
        raise Unreadable("fragments of IP packets")
    return udp_of(frame, tags, ip, is_ipv6)


def udp_of(frame, tags, ip, is_ipv6):
    udp = ip.data
    if not isinstance(udp, dpkt.udp.UDP):
        raise Unreadable(HEADLESS)
    port = KINDS.get(udp.dport) or ("answer" if udp.sport == PORTS["sbfd"] else None)
    if not port:
        return None
    payload = bytes(udp.data)[:max(udp.ulen - 8, 0)]
    if len(payload) < min(udp.ulen - 8, 256):
        raise Unreadable(SHORT)
    place = (frame.place if frame.link != COOKED_2 else int.from_bytes(frame.data[4:8], "big"), *tags)
    return Datagram(place, ip.src, ip.dst, ip.hlim if is_ipv6 else ip.ttl, port, payload, udp.sport, udp.dport)
