"""Writes small captures by hand, byte by byte, so that tools/capture is tried on what no library of its own wrote."""
import socket
import struct
import sys
from pathlib import Path
from typing import NamedTuple

sys.path.insert(0, str(Path(__file__).resolve().parent.parent))
import packet

ETHERNET, RAW_IP, COOKED, COOKED_2 = 1, 101, 113, 276
OURS, PEER = bytes([10, 0, 0, 1]), bytes([10, 0, 0, 2])
OURS_6, PEER_6 = bytes.fromhex("fd" + "00" * 14 + "01"), bytes.fromhex("fd" + "00" * 14 + "02")
START = 1700000000000000  # the first frame's moment, microseconds since 1970

# A handshake from the side of OURS: (moment, is ours, what tests/packet.py writes of it).
HANDSHAKE = [
    (0, True, "state=Down my=1 your=0 tx=1000000 rx=300000"),
    (100000, False, "state=Down my=7 your=0"),
    (200000, True, "state=Init my=1 your=7 tx=1000000 rx=300000"),
    (300000, False, "state=Up my=7 your=1"),
    (300500, True, "state=Up my=1 your=7 tx=300000 rx=300000 P"),
    (301000, False, "state=Up my=7 your=1 F"),
]


def payload(words):
    return packet.text_of(words.split())


def handshake(ours=OURS, peer=PEER, port=3784, said=HANDSHAKE):
    """The IP packets of a handshake, as (moment, bytes)."""
    return [(moment, ip_packet(*((ours, peer) if is_ours else (peer, ours)), port, payload(words)))
            for moment, is_ours, words in said]


def ip_packet(src, dst, port, data, ttl=255, extension=b"", fragment=0, source=49152):
    """An IP packet with a UDP packet; checksums are left 0."""
    udp = struct.pack(">HHHH", source, port, 8 + len(data), 0) + data
    if len(src) == 4:
        return struct.pack(">BBHHHBBH", 0x45, 0xC0, 20 + len(udp), 0, fragment, ttl, 17, 0) + src + dst + udp
    following = 0 if extension else 17
    return struct.pack(">IHBB", 0x60000000, len(extension + udp), following, ttl) + src + dst + extension + udp


def framed(link, data, tags=(), interface=1):
    """The frame of an IP packet, with VLAN tags."""
    kind = 0x0800 if data[0] >> 4 == 4 else 0x86DD
    kinds = struct.pack(">H", 0x8100 if tags else kind)
    tail = b"".join(struct.pack(">HH", tag, kind if at == len(tags) - 1 else 0x8100) for at, tag in enumerate(tags))
    if link == RAW_IP:
        return data
    if link == COOKED:
        return struct.pack(">HHH8s", 0, 1, 6, b"mac") + kinds + tail + data
    if link == COOKED_2:
        return kinds + struct.pack(">HIHBB8s", 0, interface, 1, 0, 6, b"mac") + tail + data
    return b"\x02\0\0\0\0\x01\x02\0\0\0\0\x02" + kinds + tail + data


def pcap(frames, link=ETHERNET, order="<", per_second=10**6, snap=65535):
    """A pcap file of (moment, frame), of which the first `snap` bytes are kept."""
    magic = 0xA1B2C3D4 if per_second == 10**6 else 0xA1B23C4D
    out = [struct.pack(order + "IHHiIII", magic, 2, 4, 0, 0, 65535, link)]
    for moment, frame in frames:
        seconds, part = divmod(START + moment, 10**6)
        kept = frame[:snap]
        out.append(struct.pack(order + "IIII", seconds, part * per_second // 10**6, len(kept), len(frame)) + kept)
    return b"".join(out)


def pcapng(frames, links=(ETHERNET,), order="<", resolution=None):
    """A pcapng file of (moment, frame) or (moment, frame, interface), `resolution` being a power of ten below a second."""
    def block(kind, body):
        size = struct.pack(order + "I", 12 + len(body))
        return struct.pack(order + "I", kind) + size + body + size

    option = struct.pack(order + "HHBxxxI", 9, 1, resolution, 0) if resolution else b""
    out = [block(0x0A0D0D0A, struct.pack(order + "IHHq", 0x1A2B3C4D, 1, 0, -1))]
    out += [block(1, struct.pack(order + "HHI", link, 0, 0) + option) for link in links]
    for moment, frame, *interface in frames:
        ticks = (START + moment) * 10 ** (resolution or 6) // 10**6
        head = struct.pack(order + "IIIII", (interface or [0])[0], ticks >> 32, ticks & 0xFFFFFFFF, len(frame), len(frame))
        out.append(block(6, head + frame + bytes(-len(frame) % 4)))
    return b"".join(out) + block(5, bytes(12))


class Found(NamedTuple):
    """A packet of a capture that tools/packets wrote."""
    moment: int
    src: str
    dst: str
    ttl: int
    port: int   # the port that it went to
    payload: bytes
    ports: tuple
    inbound: bool
    comment: str


def packets(data):
    """The packets of a pcapng file of raw IP packets."""
    at, found = 0, []
    while at < len(data):
        kind, size = struct.unpack_from("<II", data, at)
        body, at = data[at + 8:at + size - 4], at + size
        if kind != 6:
            continue
        _, high, low, length, _ = struct.unpack_from("<IIIII", body)
        ip, rest, options = body[20:20 + length], body[20 + (length + 3) // 4 * 4:], {}
        while len(rest) >= 4 and (code := struct.unpack_from("<H", rest)[0]):
            size = struct.unpack_from("<H", rest, 2)[0]
            options[code], rest = rest[4:4 + size], rest[4 + (size + 3) // 4 * 4:]
        six = ip[0] >> 4 == 6
        ends = [socket.inet_ntop(socket.AF_INET6 if six else socket.AF_INET, end)
                for end in ((ip[8:24], ip[24:40]) if six else (ip[12:16], ip[16:20]))]
        udp = ip[40 if six else 20:]
        ports = struct.unpack_from(">HH", udp)
        found.append(Found(high << 32 | low, *ends, ip[7 if six else 8], ports[1], udp[8:], ports, options[2][0] == 1,
                           options.get(1, b"").decode("ascii")))
    return found
