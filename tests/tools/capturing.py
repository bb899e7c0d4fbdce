"""Tests of tools/capture, on captures that captures.py writes by hand."""
import gzip
import os
import random
import re
import struct
import subprocess

import captures
from captures import COOKED, COOKED_2, ETHERNET, OURS, OURS_6, PEER, PEER_6, RAW_IP, framed, handshake, ip_packet, pcap, pcapng
from trials import TOP, Wrong, has, same, test

TABLE = "p2p 1 single 1 10.0.0.1 10.0.0.2 active 300000 300000 3 0 0"


def wanted_file(table=TABLE, hops="single", peer="10.0.0.2", ours="10.0.0.1", ticks="0 100 200 300 400", bfd=1, iface=1):
    """The packet file of the handshake, with these ticks."""
    lines = [(int(tick) * 1000, 0, f"tick {tick}") for tick in ticks.split()]
    lines += [(moment, 1, f"rx {moment} {hops} {iface} {peer} {ours} 255 {captures.payload(words).hex()}")
              for moment, is_ours, words in captures.HANDSHAKE if not is_ours]
    return "\n".join([f"bfd {bfd}", table, "run", *[line for _, _, line in sorted(lines)], "end", ""])


def captured(place, data, *words, status=0):
    return place.tool("capture", "--local", "10.0.0.1", "--tick", "100", *words, place.file("a.pcap", data), status=status)


@test("dpkt")
def capture_reads_every_form_of_file(place):
    frames = [(moment, framed(ETHERNET, data)) for moment, data in handshake()]
    forms = {"pcap": pcap(frames), "big-endian": pcap(frames, order=">"), "nanoseconds": pcap(frames, per_second=10**9),
             "pcapng": pcapng(frames), "big-endian pcapng": pcapng(frames, order=">"), "pcapng, ns": pcapng(frames, resolution=9)}
    for name, data in forms.items():
        same(captured(place, data)[0], wanted_file(), name)
    forms |= {f"{name}, compressed": gzip.compress(data) for name, data in forms.items()}
    for name in ("pcap", "pcapng, compressed"):
        same(place.tool("capture", "--local", "10.0.0.1", "--tick", "100", "-", text=forms[name])[0], wanted_file(), "standard input")
    same(captured(place, forms["pcap, compressed"])[0], wanted_file(), "compressed")
    text, said = captured(place, gzip.compress(forms["pcap"])[:-12])
    has(said, "the file is cut off or damaged behind frame 5")


@test("dpkt")
def capture_reads_every_kind_of_frame(place):
    for link, tags in ((RAW_IP, ()), (COOKED, ()), (COOKED, (5,)), (COOKED_2, ()), (ETHERNET, (7,)), (ETHERNET, (7, 8))):
        data = pcap([(moment, framed(link, ip, tags)) for moment, ip in handshake()], link)
        same(captured(place, data)[0], wanted_file(), f"link type {link}, VLANs {tags}")


@test("dpkt")
def capture_reads_ipv6_and_several_hops(place):
    for extension in (b"", bytes([17, 0, 1, 4, 0, 0, 0, 0])):
        frames = [(moment, framed(ETHERNET, ip_packet(*ends(is_ours, OURS_6, PEER_6), 4784, captures.payload(words),
                                                      extension=extension))) for moment, is_ours, words in captures.HANDSHAKE]
        got = place.tool("capture", "--local", "fd00::1", "--tick", "100", place.file("a.pcap", pcap(frames)))[0]
        table = f"p2p 1 multi 1 {OURS_6.hex()} {PEER_6.hex()} active 300000 300000 3 0 0"
        same(got, wanted_file(table, "multi", PEER_6.hex(), OURS_6.hex()), f"extension header {extension.hex()}")


def ends(is_ours, ours=OURS, peer=PEER):
    return (ours, peer) if is_ours else (peer, ours)


@test("dpkt")
def capture_distinguishes_interfaces_and_vlans(place):
    frames = [(moment, framed(ETHERNET, ip), 0) for moment, ip in handshake()]
    frames += [(400000 + moment, framed(RAW_IP, ip), 1) for moment, ip in handshake()]
    frames += [(800000 + moment, framed(ETHERNET, ip, (9,)), 0) for moment, ip in handshake()]
    text, said = captured(place, pcapng(frames, (ETHERNET, RAW_IP)))
    same([line.split()[1:4] for line in text.split("\n") if line.startswith("p2p")],
         [["1", "single", "1"], ["2", "single", "2"], ["3", "single", "3"]], "sessions")
    has(said, "interface 3 is number 0 of the capture, VLAN 9", "its discriminator 1 is that of another session")


@test("dpkt")
def capture_gives_what_a_replay_takes_up(place):
    text, _ = captured(place, pcap([(moment, framed(ETHERNET, ip)) for moment, ip in handshake()]))
    states = [line for line in place.replay(text).split("\n") if " state " in line]
    same([line.split()[2:] for line in states], [["1", "Down", "Init", "0"], ["1", "Init", "Up", "0"]], "states")


def keyed(changed_at):
    """Packets of both sides, of which ours change from key 5 to key 6."""
    auth = "auth=4 secret=736563726574 key=5 seq={}"
    said = [(0, True, "state=Down my=1 your=0 " + auth.format(100)), (1000, False, "state=Down my=7 " + auth.format(900)),
            (2000, True, "state=Init my=1 your=7 " + auth.format(101)), (3000, False, "state=Up my=7 your=1 " + auth.format(901)),
            (4000, True, "state=Up my=1 your=7 " + auth.format(102)),
            (changed_at, True, "state=Up my=1 your=7 auth=4 secret=7365636f6e64 key=6 seq=103"),
            (changed_at + 1000, False, "state=Up my=7 your=1 auth=4 secret=7365636f6e64 key=6 seq=902")]
    return pcap([(moment, framed(ETHERNET, ip)) for moment, ip in handshake(said=said)])


@test("dpkt")
def capture_takes_keys_from_a_file(place):
    keys = place.file("keys", '# keys\n\n* 4 6 "second"\n10.0.0.2 4 5 736563726574\n10.0.0.3 4 7 00\n* 5 8 00\n')
    text, _ = captured(place, keyed(50000), "--keys", keys)
    same(text.split("\n")[:5], ["bfd 2", "p2p 1 single 1 10.0.0.1 10.0.0.2 active 1000000 1000000 3 0 100",
                                "auth 1 4 5 736563726574", "key 1 6 7365636f6e64", "run"], "the table")
    has(text, "\ncmd 50000 1 key 6\n")
    report = place.replay(text)
    same((" drop " in report, " refuse " in report, report.count(" state ")), (False, False, 2), "the replay")


@test("dpkt")
def capture_says_which_keys_are_missing(place):
    text, said = captured(place, keyed(50000))
    has(said, "it uses Auth Type 4 (Keyed SHA1), and --keys has no key of it")
    same(("auth" in text, "cmd" in text), (False, False), "a table without keys")
    for line, why in (("* 4 5", "ADDRESS TYPE KEYID SECRET"), ("* 6 5 00", "1 to 5"), ("* 4 5 0", "neither hexadecimal digits"),
                      ("* 4 5 secret",
                       'the secret secret is neither hexadecimal digits, two for each byte, nor text between quotation marks'),
                      ("* sha1 5 00", "are numbers, and `sha1` and `5` stand there"),
                      ('* 2 5 "12345678901234567"', "1 to 16 bytes"), ("10.0.0 4 5 00", "10.0.0"), ("* 4 x 00", "x")):
        said = captured(place, keyed(50000), "--keys", place.file("keys", line + "\n"), status=1)[1]
        has(said, "line 1", why)


@test("dpkt")
def capture_makes_commands_of_what_the_local_side_changed(place):
    said = [*captures.HANDSHAKE, (400000, True, "state=Up my=1 your=7 tx=500000 rx=200000 mult=5 P"),
            (500000, True, "state=AdminDown diag=7 my=1 your=7"), (600000, True, "state=Down diag=7 my=1")]
    text, _ = captured(place, pcap([(moment, framed(ETHERNET, ip)) for moment, ip in handshake(said=said)]))
    same(sorted(line for line in text.split("\n") if line.startswith("cmd")),
         ["cmd 400000 1 mult 5", "cmd 400000 1 rx 200000", "cmd 400000 1 tx 500000", "cmd 500000 1 disable", "cmd 500000 1 mult 3",
          "cmd 600000 1 enable"], "commands")


@test("dpkt")
def capture_puts_intervals_behind_the_final_of_their_poll(place):
    """A replay's own poll of its first intervals ends by that F, and would refuse a command before it."""
    said = [*captures.HANDSHAKE, (1600000, True, "state=Up my=1 your=7 tx=500000 rx=200000 P"), (1601000, False, "state=Up my=7 your=1 F"),
            (2900000, True, "state=Up my=1 your=7 tx=500000 rx=200000 P"), (2901000, False, "state=Up my=7 your=1 F")]
    text, _ = captured(place, pcap([(moment, framed(ETHERNET, ip)) for moment, ip in handshake(said=said)]))
    same(sorted(line for line in text.split("\n") if line.startswith("cmd")), ["cmd 1601001 1 tx 500000", "cmd 2901001 1 rx 200000"],
         "commands")
    same(" refuse " in place.replay(text), False, "refused")


@test("dpkt")
def capture_enables_before_the_packet_that_was_taken_up(place):
    """A passive FRR that is enabled sends nothing until it has heard its peer: its Init says that it was enabled before that."""
    for heard, enabled in ((590000, 590000), (450000, 600000)):
        said = [*captures.HANDSHAKE, (heard, False, "state=Down my=7 your=1"), (500000, True, "state=AdminDown diag=7 my=1 your=7"),
                (600000, True, "state=Init my=1 your=7")]
        text, _ = captured(place, pcap([(moment, framed(ETHERNET, ip)) for moment, ip in handshake(said=sorted(said))]))
        same([line for line in text.split("\n") if "able" in line], ["cmd 500000 1 disable", f"cmd {enabled} 1 enable"],
             f"heard at {heard}")


@test("dpkt")
def capture_makes_initiators_and_reflectors(place):
    def asked(moment, words, src=OURS, dst=PEER):
        return moment, framed(ETHERNET, ip_packet(src, dst, 7784, captures.payload("D rx=0 " + words)))

    def answered(moment, words, src=PEER, dst=OURS):
        return moment, framed(ETHERNET, ip_packet(src, dst, 49152, captures.payload("rx=50000 " + words), source=7784))

    frames = [asked(0, "my=5 your=900"), answered(1000, "state=Up my=900 your=5"), asked(2000, "state=Up my=5 your=900 tx=100000"),
              asked(3000, "my=7 your=800", PEER, OURS), answered(4000, "state=AdminDown my=800 your=7", OURS, PEER),
              asked(50000, "state=Up my=5 your=900 tx=200000 mult=5")]
    text, said = captured(place, pcap(frames))
    same(text.split("\n"), ["bfd 1", "sbfd 5 900 1 10.0.0.1 10.0.0.2 100000 3 0", "reflector 800 50000 admin", "run", "tick 0",
                            f"rx 1000 answer 1 10.0.0.2 10.0.0.1 255 {captures.payload('rx=50000 state=Up my=900 your=5').hex()}",
                            f"rx 3000 sbfd 1 10.0.0.2 10.0.0.1 255 {captures.payload('rx=0 D my=7 your=800').hex()}",
                            "cmd 50000 5 mult 5", "cmd 50000 5 tx 200000", "tick 100", "end", ""], "the packet file")
    same([line.split(" ", 1)[1] for line in place.replay(text).split("\n") if " tx 800" in line or " state" in line],
         ["state 5 Down Up 0", f"tx 800 {captures.payload('state=AdminDown rx=50000 my=800 your=7').hex()}"], "the replay")
    has(said, "session 5 sbfd 10.0.0.1 10.0.0.2: 1 packets came, 3 were sent", "session 800 reflector: 1 packets came, 1 were sent")


@test("dpkt")
def capture_makes_heads_and_tails(place):
    group = bytes([239, 0, 0, 1])
    sent = ((0, "state=Up tx=100000"), (80000, "state=Up tx=200000 P"), (200000, "state=AdminDown diag=7 tx=200000"))
    frames = [(moment, framed(ETHERNET, ip_packet(OURS, group, 3784, captures.payload("M D my=40 rx=0 " + words))))
              for moment, words in sent]
    text, _ = captured(place, pcap(frames))
    same(text.split("\n"), ["bfd 1", "head 40 1 10.0.0.1 239.0.0.1 100000 3 0", "run", "tick 0", "cmd 80000 40 tx 200000",
                            "tick 100", "tick 200", "cmd 200000 40 disable", "tick 300", "end", ""], "the head's side")
    text, said = place.tool("capture", "--local", "10.0.0.2", "--tick", "100", place.file("a.pcap", pcap(frames)))
    same(text.split("\n")[:3], ["bfd 1", "tail 1 40 1 239.0.0.1 10.0.0.1", "run"], "the tail's side")
    same(text.count("\nrx "), 3, "what came to the tail")
    same([line for line in place.replay(text).split("\n") if " state " in line], ["2 state 1 Down Up 0", "6 state 1 Up Down 3"],
         "the replay")
    same("none of its own" in said, False, "a tail sends nothing")


@test("dpkt")
def capture_makes_no_session_of_discriminator_0(place):
    rows = [("a head of another side", PEER, bytes([239, 0, 0, 1]), 3784, 49152, "state=Up M my=0", "MyDiscr"),
            ("a head of the local side", OURS, bytes([239, 0, 0, 1]), 3784, 49152, "state=Up M my=0", ""),
            ("a question for no reflector", OURS, PEER, 7784, 49152, "D my=5 your=0", ""),
            ("a question of no initiator", OURS, PEER, 7784, 49152, "D my=0 your=900", ""),
            ("a question that came", PEER, OURS, 7784, 49152, "D my=5 your=0", "YourUnknown"),
            ("an answer of no reflector", PEER, OURS, 49152, 7784, "state=Up my=0 your=5", "MyDiscr"),
            ("an answer of the local side", OURS, PEER, 49152, 7784, "state=Up my=0 your=5", "")]
    for name, src, dst, port, source, words, dropped in rows:
        odd = 310000, ip_packet(src, dst, port, captures.payload(words), source=source)
        text, said = captured(place, pcap([(moment, framed(ETHERNET, ip)) for moment, ip in [*handshake(), odd]]))
        same(re.findall(r"^(?:p2p|sbfd|reflector|head|tail) .*", text, re.MULTILINE), [TABLE], f"{name}: the table")
        same("1 packets of the local side with 0 in place of a discriminator" in said, src == OURS, f"{name}: what is left out")
        same(re.findall(r" drop (\w+)", place.replay(text)), [dropped] * bool(dropped), f"{name}: drops")


@test("dpkt")
def capture_makes_files_that_are_replayed_of_any_packets(place):
    draws, read = random.Random(20260101), 0
    for number in range(15):
        frames = [(at * 1000, framed(ETHERNET, odd_packet(draws))) for at in range(draws.choice((1, 10, 400)))]
        path = place.file("a.pcap", pcap(frames))
        ran = subprocess.run([TOP / "tools/capture", "--local", "10.0.0.1", "--local", "fd00::1", path], capture_output=True)
        report = place.replay(ran.stdout.decode("ascii"))
        if ran.returncode not in (0, 1) or b"Traceback" in ran.stderr or ran.returncode == 0 and "\ndone " not in "\n" + report:
            raise Wrong(f"capture {number}: status {ran.returncode}, replayed {report[:80]!r}: {ran.stderr.decode('utf-8')}")
        read += ran.returncode == 0
    same(read >= 10, True, f"most of the captures are read, and not {read} of 15")


def odd_packet(draws):
    """An IP packet on a port of BFD with fields that are at the ends of their ranges or where none should be, or with a byte changed."""
    six, group = draws.random() < 0.3, draws.random() < 0.2
    ours, peer = (OURS_6, PEER_6) if six else (OURS, PEER)
    if group:
        ours, peer = draws.choice(((bytes.fromhex("ff") + bytes(15) if six else bytes([239, 0, 0, 1]), peer), (peer, ours)))
    fields = {word: draws.choice((0, 1, 2, 7, 2**32 - 1)) for word in ("my", "your", "tx", "rx") if draws.random() < 0.7}
    if draws.random() < 0.3:
        fields |= {"auth": draws.randrange(6), "secret": b"secret", "key": draws.randrange(256)}
    words = [f"{name}={value.hex() if name == 'secret' else value}" for name, value in fields.items()]
    words += [f"state={draws.choice(('AdminDown', 'Down', 'Init', 'Up'))}", f"mult={draws.choice((0, 3, 255))}"]
    words += draws.sample("PFCDM", draws.choice((0, 0, 1, 2)))
    port, source = draws.choice(((3784, 49152), (4784, 49152), (7784, 49152), (49152, 7784), (3785, 49152)))
    ip = bytearray(ip_packet(*draws.choice(((ours, peer), (peer, ours), (ours, ours))), port, captures.payload(" ".join(words)),
                             ttl=draws.choice((255, 254, 0)), source=source))
    if draws.random() < 0.3:
        ip[draws.randrange(len(ip))] = draws.randrange(256)
    return bytes(ip)


@test("dpkt")
def capture_finds_echo_packets_that_came_back(place):
    def echo(moment, number, ttl):
        return moment, framed(ETHERNET, ip_packet(OURS, OURS, 3785, b"BFDe" + struct.pack(">III", 1, number, 0), ttl=ttl))

    started = [(moment, framed(ETHERNET, ip)) for moment, ip in handshake()]
    frames = [*started, echo(302000, 0, 255), echo(303000, 0, 254), echo(402000, 1, 255), echo(403000, 1, 254),
              echo(503000, 2, 255)]
    text, _ = captured(place, pcap(frames))
    has(text, "p2p 1 single 1 10.0.0.1 10.0.0.2 active 300000 300000 3 100000 0\n")
    same([line for line in text.split("\n") if " echo " in line],
         [f"rx {moment} echo 1 10.0.0.1 10.0.0.1 254 42464465000000010000000{number}00000000"
          for moment, number in ((303000, 0), (403000, 1))],
         "what came back")
    for rest, why in (([echo(302000, 7, 255), echo(303000, 7, 254), echo(402000, 8, 255), echo(403000, 8, 254)],
                       "don't begin with number 0"),
                      ([echo(302000, 0, 255), echo(303000, 0, 254)], "one echo packet shows no interval")):
        text, said = captured(place, pcap([*started, *rest]))
        has(text, TABLE + "\n")
        has(said, why, f"left out: {len(rest) // 2} echo packets that came: no session has the Echo function on here and sent them")
        same(" drop " in place.replay(text), False, "drops")


@test("dpkt")
def capture_leaves_out_echo_packets_of_others(place):
    """As another daemon sends them: from its own address to the peer's, which sends them back; 82 of them."""
    frames = [(moment, framed(ETHERNET, ip)) for moment, ip in handshake()]
    for at in range(82):
        frames += [(400000 + at * 50000, framed(ETHERNET, ip_packet(OURS, PEER, 3785, bytes(24)))),
                   (400500 + at * 50000, framed(ETHERNET, ip_packet(PEER, OURS, 3785, bytes(24), ttl=254)))]
    text, said = captured(place, pcap(frames))
    same((" echo " in text, " drop " in place.replay(text)), (False, False), "echo packets and drops")
    has(said, "left out: 82 echo packets that came", "left out: 82 echo packets that the local side sent to a peer")
    frames = [(moment, framed(ETHERNET, ip_packet(OURS, OURS, 3785, bytes(24), ttl=ttl)))
              for at in range(82) for moment, ttl in ((400000 + at * 50000, 255), (400500 + at * 50000, 254))]
    text, said = captured(place, pcap([(moment, framed(ETHERNET, ip)) for moment, ip in handshake()] + frames))
    same((" echo " in text, " drop " in place.replay(text)), (False, False), "echo packets to the own address")
    has(said, "left out: 82 echo packets that came", "left out: 82 echo packets that the local side sent, in another form than bfdd's")


@test("dpkt")
def capture_keeps_its_start_beside_the_packet_file(place):
    frames, path = [(moment, framed(ETHERNET, ip)) for moment, ip in handshake()], place.folder / "own.script"
    text, said = captured(place, pcap(frames), "-o", path)
    same((text, path.read_text(), "the capture began" in said), ("", wanted_file(), False), "the packet file")
    same((place.folder / "own.script.start").read_text(), "start 2023-11-14T22:13:20.000000Z\n", "its start")  # captures.START
    has(captured(place, pcap(frames))[1], "the capture began at 2023-11-14 22:13:20.000000 UTC; with -o FILE")
    report = place.file("own.report", place.replay(path.read_text()))
    for name, start in (("own.script", captures.START), ("other.script", 0)):
        place.file("other.script", path.read_text())
        place.tool("packets", place.folder / name, "--report", report, "-o", place.folder / "a.pcapng")
        moments = [packet.moment for packet in captures.packets((place.folder / "a.pcapng").read_bytes()) if packet.inbound]
        same(moments, [start + moment for moment, is_ours, _ in captures.HANDSHAKE if not is_ours], f"the moments of {name}")
    has(captured(place, pcap(frames), "-o", place.folder / "none/own.script", status=1)[1], "No such file")


@test("dpkt")
def capture_takes_prefixes(place):
    peers = [bytes([10, 9, 0, at]) for at in range(1, 61)]
    frames = [(moment + at, framed(ETHERNET, ip)) for at, ours in enumerate(peers) for moment, ip in handshake(ours=ours)]
    path = place.file("a.pcap", pcap(sorted(frames)))
    text, _ = place.tool("capture", "--local", "10.9.0.0/26", path)
    same((text.count("\np2p "), text.count("\nrx ")), (60, 180), "sessions and packets")
    same(place.tool("capture", "--local", "10.9.0.7/32", path)[0].count("\np2p "), 1, "one address")
    six = place.file("b.pcap", pcap([(moment, framed(ETHERNET, ip)) for moment, ip in handshake(OURS_6, PEER_6)]))
    same(place.tool("capture", "--local", "10.0.0.0/8", "--local", "fd00::1/128", six)[0].count("\np2p "), 1, "IPv6")
    has(place.tool("capture", "--local", "10.9.0.0/33", path, status=1)[1], "--local: '10.9.0.0/33'")


@test("dpkt")
def capture_says_what_it_left_out(place):
    up = captures.payload("state=Up my=7 your=1")
    more = [ip_packet(PEER, PEER, 3785, b"echo"), ip_packet(PEER, OURS, 6784, up), ip_packet(PEER, OURS, 53, b"a name"),
            ip_packet(PEER, OURS, 3784, up, fragment=0x2000), ip_packet(bytes([10, 0, 0, 9]), PEER, 3784, up),
            ip_packet(PEER, OURS, 3784, up)[:40], ip_packet(PEER, OURS, 3784, up)[:24]]
    frames = [(moment, framed(ETHERNET, ip)) for moment, ip in handshake() + [(302000, ip) for ip in more]]
    text, said = captured(place, pcap(frames))
    same(text, wanted_file(), "the packet file")
    has(said, "1 echo packets of a peer", "1 packets of BFD on link aggregates", "1 fragments",
        "1 control packets between other addresses", "1 packets that the capture cut short",
        "1 frames whose UDP header is cut off", "1 frames of other traffic")


@test("dpkt")
def capture_explains_bad_input(place):
    whole = pcap([(moment, framed(ETHERNET, ip)) for moment, ip in handshake()])
    bad = {b"": "the file is empty", whole[:10]: "cut off in its header", b"bfd 1\nrun\nend\n": "is no capture that is read here",
           b"\x1f\x8b\x08\0": "cut off or damaged behind frame 0", whole[:24]: "there is no BFD packet",
           pcap([(0, framed(ETHERNET, ip_packet(PEER, OURS, 53, b"x")))]): "there is no BFD packet",
           pcap([(moment, framed(ETHERNET, ip)) for moment, ip in handshake()], snap=50):
           "each of its 6 packets that may be of BFD is cut short by the capture's snap length: capture whole frames, as `tcpdump -s 0`",
           pcap([(moment, framed(ETHERNET, ip)) for moment, ip in handshake(OURS_6, PEER_6)], snap=50): "each of its 6 packets that may be",
           gzip.compress(b"bfd 1"): "is no capture that is read here",
           pcap([(0, bytes(60))], 105): "1 frames of link type 105, which isn't read here",
           pcapng([])[:30]: "cut off", b"\x0a\x0d\x0d\x0a": "cut off in its header",
           pcapng([])[:28] + struct.pack("<II", 1, 0) + bytes(16): "left out what is behind: the file is cut off or damaged behind frame 0",
           pcapng([])[:28] + struct.pack("<IIHHIHHI", 1, 28, 1, 0, 0, 14, 8, 0) + bytes(4): "there is no BFD packet"}
    for data, why in bad.items():
        text, said = captured(place, data, status=1)
        same(text, "", why)
        has(said, why)
    has(place.tool("capture", "--local", "10.0.0.1", place.folder / "none", status=1)[1], "No such file")
    has(place.tool("capture", "--local", "10.0.0", place.file("a.pcap", whole), status=1)[1], "--local: '10.0.0'")
    has(place.tool("capture", place.file("a.pcap", whole), status=1)[1], "name a side with --local", "10.0.0.1 (3 sent)")
    has(place.tool("capture", "--local", "10.0.0.7", place.file("a.pcap", whole), status=1)[1], "no session of 10.0.0.7")
    has(captured(place, whole, "--from", "0.5", status=1)[1], "none of its 6 frames lies between second 0.5 and second 1000000000000")
    other = pcap([(at * 100000, framed(ETHERNET, ip_packet(PEER, OURS, 53, b"x"))) for at in range(3)])
    has(captured(place, other, "--from", "0.1", "--to", "0.15", status=1)[1], "left out: 2 frames that don't lie between",
        "there is no BFD packet (UDP port 3784, 3785, 4784 or 7784) between second 0.1 and second 0.15")


@test("dpkt")
def capture_leaves_out_ipv6_that_cannot_be_read(place):
    """An extension header that ends behind the packet, or that the library can't step over: its object then has no protocol."""
    came = framed(ETHERNET, ip_packet(PEER_6, OURS_6, 3784, captures.payload("state=Down my=7")))
    for kind in (0, 43, 44, 50, 51, 60):
        damaged = bytearray(framed(ETHERNET, ip_packet(PEER_6, OURS_6, 3784, b"", extension=bytes([kind, 255, 0, 0, 0, 0, 0, 0]))))
        damaged[20] = kind
        text, said = place.tool("capture", "--local", "fd00::1", place.file("a.pcap", pcap([(0, came), (1, bytes(damaged))])))
        same(text.count("\nrx "), 1, f"header {kind}: {said}")


@test("dpkt")
def capture_takes_frames_of_any_moment(place):
    came = framed(ETHERNET, ip_packet(PEER, OURS, 3784, captures.payload("state=Up")))
    for last, count in ((10**18, 2), (10**18 + 1, 1)):
        data = pcapng([(0, came), (last, came)])
        text, said = place.tool("capture", "--local", "10.0.0.1", place.file("a.pcap", data))
        same((text.count("\nrx "), f"left out: {2 - count} frames" in said), (count, count < 2), "packets that came")
        has(place.replay(text), "\ndone ")
    path = place.file("b.pcap", pcapng([(3 * 10**17, came), (3 * 10**17 + 1, came)]))
    start = place.file("b.script.start", "start 2023-11-14T22:13:20.000000Z\n")
    place.tool("capture", "--local", "10.0.0.1", "-o", place.folder / "b.script", path)
    same(os.path.exists(start), False, "the start of a capture beyond the year 9999")


@test("dpkt")
def capture_uses_the_whole_frames_of_a_cut_file(place):
    frames = [(moment, framed(ETHERNET, ip)) for moment, ip in handshake()]
    for data in (pcap(frames)[:-7], pcapng(frames)[:-40]):
        text, said = captured(place, data)
        has(said, "the file is cut off or damaged behind frame 5")
        same(text.count("\nrx "), 2, "packets that came")


@test("dpkt")
def capture_takes_a_million_packets(place):
    theirs = framed(ETHERNET, ip_packet(PEER, OURS, 3784, captures.payload("state=Up my=7 your=1")))
    other = framed(ETHERNET, ip_packet(PEER, OURS, 53, bytes(range(200))))
    with place.within(100):
        text, said = captured(place, pcap([(at * 100, other if at % 4 else theirs) for at in range(1000000)]))
    same((text.count("\nrx ") + text.count("\ntick "), text[-5:]), (200000, "\nend\n"), "event lines, and the end")
    has(said, "event lines beyond 200000, from second", "250000 BFD packets", "750000 frames of other traffic")
