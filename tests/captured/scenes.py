"""What happens between two daemons while they are captured: a function each."""
import datetime
import re
import signal
import time
from pathlib import Path

from labs import waits

LIVE = Path(__file__).resolve().parent.parent.parent / "examples/live"
SCENES = {}
TYPES = {"simple": 1, "keyed-md5": 2, "meticulous-keyed-md5": 3, "keyed-sha1": 4, "meticulous-keyed-sha1": 5}
KINDS = {"simple": 1, "md5": 2, "meticulous-md5": 3, "sha1": 4, "meticulous-sha1": 5}  # in the names of examples/live
DIRECT, OVER_IPV6, OVER_HOPS = (("direct", "10.0.0.2 local-address 10.0.0.1 interface xa", "10.0.0.1"),
                                ("ipv6", "fd00::2 local-address fd00::1 interface xa", "fd00::1"),
                                ("multi", "10.0.2.1 multihop local-address 10.0.1.1", "10.0.1.1"))
FRR_LINES = ["receive-interval 300", "transmit-interval 300"]


def scene(name, *words):
    def mark(function):
        SCENES[name] = lambda lab: function(lab, *words)
        return function
    return mark


@scene("bird-simple", "simple")
@scene("bird-keyed-md5", "keyed-md5")
@scene("bird-meticulous-keyed-md5", "meticulous-keyed-md5")
@scene("bird-keyed-sha1", "keyed-sha1")
@scene("bird-meticulous-keyed-sha1", "meticulous-keyed-sha1")
def bird_with_keys(lab, kind):
    """Keys that change by the clock and by a new configuration, a key and then a secret that the other side doesn't have, a BIRD that is
    killed, started again, and stopped."""
    lab.on_purpose = {"auth-key", "auth-digest", "auth-length"}
    secrets = {5: "secret", 6: "twenty bytes of key!"[:20 if TYPES[kind] > 3 else 16], 7: "7", 9: "known to one"}
    lines = {number: f'* {TYPES[kind]} {number} "{secret}"\n' for number, secret in secrets.items()}
    common = "".join(lines[number] for number in (5, 6, 7))

    def options(*numbers, at=None, wrong=""):
        words = []
        for number in numbers:
            clock = f'generate {"to" if number == 5 else "from"} "{at:%Y-%m-%d %H:%M:%S}"; accept from "2020-01-01";' if at else ""
            words.append(f'password "{wrong or secrets[number]}" {{ id {number}; {clock} }};')
        return f"authentication {kind.replace('-', ' ')}; {' '.join(words)}"

    now = datetime.datetime.now()
    lab.bird_begins("a", options(5, 6, at=now + datetime.timedelta(seconds=6)), common)
    waits(0.3)
    b = lab.bird_begins("b", options(5, 6, at=now + datetime.timedelta(seconds=8)), common + lines[9])
    waits(10)
    lab.bird_changes("a", options(6, 7), rx=400)
    waits(1.5)
    for numbers, seconds in ((7, 6), 2), ((9, 7, 6), 2.5), ((6, 7), 3.5):
        lab.bird_changes("b", options(*numbers), tx=350)
        waits(seconds)
    b.ends(None)
    lab.bird_changes("b", options(6, wrong="wrong"), tx=350)
    waits(2.5)
    b.ends()
    waits(1.5)
    b = lab.bird_begins("b", options(6, 7), common)
    waits(4)
    b.ends(signal.SIGSTOP)
    waits(2.5)


@scene("bird-without-keys")
def bird_without_keys(lab):
    """One side is passive; an interval of each changes, and the passive one is killed, started again, disabled and enabled."""
    passive = {"options": "passive on;"}
    lab.bird_begins("a")
    waits(0.3)
    b = lab.bird_begins("b", mode="passive", **passive)
    waits(5)
    for tx in 700, 500:
        lab.bird_changes("a", tx=tx)
        waits(4)
    lab.bird_changes("b", rx=600, **passive)
    waits(4)
    b.ends()
    waits(3)
    b = lab.bird_begins("b", mode="passive", **passive)
    waits(4)
    b.ends(None)
    for word in "disable", "enable":
        lab.birdc("b", word, "bfd1")
        waits(3)


@scene("bird-multihop", "multi",
       'authentication meticulous keyed sha1; password "{0}" {{ id {1}; }}; password "{2}" {{ id {3}; }};',
       '* 5 1 "one"\n* 5 2 "two"\n')
@scene("bird-ipv6", "ipv6", 'authentication keyed md5; password "{0}" {{ id {1}; }}; password "{2}" {{ id {3}; }};',
       '* 2 1 "one"\n* 2 2 "two"\n')
def bird_elsewhere(lab, hops, options, keys):
    """The key changes on both sides, and one is killed and started again."""
    first, second = options.format("one", 1, "two", 2), options.format("two", 2, "one", 1)
    lab.bird_begins("a", first, keys, hops=hops)
    waits(0.3)
    b = lab.bird_begins("b", first, keys, hops=hops)
    waits(5)
    for side in "ba":
        lab.bird_changes(side, second, hops=hops)
        waits(3)
    b.ends()
    waits(3)
    lab.bird_begins("b", second, keys, hops=hops)
    waits(4)


@scene("frr-bird", DIRECT)
@scene("frr-bird-passive", DIRECT, "active", "passive")
@scene("frr-passive-bird-ipv6", OVER_IPV6, "passive")
@scene("frr-bird-multihop", OVER_HOPS)
def frr_and_bird(lab, ends, mode="active", bird_mode="active"):
    """Intervals change, FRR is shut down, BIRD is killed and started again, FRR is killed and started again, BIRD is stopped."""
    hops, peer, local = ends
    bird = {"options": "passive on;" if bird_mode == "passive" else "", "hops": hops}
    lines = [*FRR_LINES, *(["passive-mode"] if mode == "passive" else []), *(["minimum-ttl 1"] if hops == "multi" else [])]
    a = lab.frr_begins("a", peer, lines, local, mode)
    waits(0.5)
    b = lab.bird_begins("b", mode=bird_mode, **bird)
    waits(5)
    for line in "receive-interval 400", "transmit-interval 500", "detect-multiplier 5":
        lab.frr_changes("a", peer, line)
        waits(4)
    lab.bird_changes("b", tx=350, **bird)
    waits(3)
    lab.frr_changes("a", peer, "shutdown")
    waits(3)  # (FRR still has its peer's discriminator after a Detection Time without a packet, which RFC 5880 section 6.8.1 forbids)
    lab.frr_changes("a", peer, "no shutdown")
    waits(6)
    b.ends()
    waits(4)
    b = lab.bird_begins("b", mode=bird_mode, **bird)
    waits(5)
    a.ends()
    waits(3.5)
    lab.frr_begins("a", peer, lines, local, mode)
    waits(5)
    b.ends(signal.SIGSTOP)
    waits(3)


@scene("frr-frr-echo")
def frr_frr_echo(lab):
    """Two FRRs with the Echo function, of which one is killed and started again. Each kernel returns the other's echo packets."""
    for side in "ab":
        for setting in ("ip_forward=1", "conf.all.accept_local=1", "conf.all.rp_filter=0", f"conf.x{side}.rp_filter=0",
                        "conf.all.send_redirects=0", f"conf.x{side}.send_redirects=0"):
            lab.run(side, "sysctl", "-q", "-w", f"net.ipv4.{setting}")
    lines = [*FRR_LINES, "echo-mode", "echo transmit-interval 200", "echo receive-interval 100"]
    other = ("b", "10.0.0.1 local-address 10.0.0.2 interface xb", lines, "10.0.0.2")
    lab.frr_begins("a", DIRECT[1], lines, "10.0.0.1")
    waits(0.5)
    b = lab.frr_begins(*other)
    waits(8)
    b.ends()
    waits(4)
    lab.frr_begins(*other)
    waits(6)


@scene("keepalived-bird", lambda lab: lab.bird_begins("a"), lambda lab: lab.bird_changes("a", rx=500))
@scene("keepalived-frr", lambda lab: lab.frr_begins("a", DIRECT[1], FRR_LINES, "10.0.0.1"),
       lambda lab: lab.frr_changes("a", DIRECT[1], "transmit-interval 500"))
def with_keepalived(lab, begins, changes):
    """keepalived's peer changes, is killed and started again, and keepalived is ended."""
    b = lab.life("keepalived", lab.keepalived("b"), lab.folder / "keepalived.log", "10.0.0.2")
    waits(0.5)
    a = begins(lab)
    waits(4)
    changes(lab)
    waits(4)
    a.ends()
    waits(3)
    begins(lab)
    waits(4)
    b.ends(signal.SIGTERM)
    waits(2)


@scene("serve-bird")
def serve_and_birds(lab):
    """`bfdd serve` by examples/live beside six BIRDs on the loopback interface: no keys and five types, which change on both sides. The
    BIRDs are killed, started again, and killed."""
    birds, all_keys = [], ""
    for path in sorted(LIVE.glob("bird-*.conf")):
        own = re.search(r"local (127\.0\.0\.\d+)", path.read_text())[1]
        kind = KINDS.get(path.stem.removeprefix("bird-"))
        keys = "".join(f'{{}} {kind} {number} "{secret}"\n' for number, secret in ((5, "secret"), (6, "second"))) if kind else ""
        all_keys += keys.format(own, own)
        text = path.read_text().replace("protocol bfd {", "protocol bfd bfd1 { debug all;")
        text = f'timeformat log iso long us;\nlog "{lab.folder}/{path.stem}.log" all;\n' + text
        birds.append((lab.folder / path.name, text, lab.folder / f"{path.stem}.log", own, keys.format("127.0.0.1", "127.0.0.1")))

    def begin():
        lives = []
        for conf, text, log, own, keys in birds:
            conf.write_text(text)
            process = lab.start("a", "bird", "-f", "-c", conf, "-s", conf.with_suffix(".ctl"))
            lives.append(lab.life("bird", process, log, own, keys=keys))
        return lives

    ours = lab.serves(LIVE / "bird.script", all_keys, "22000")
    lives = begin()
    waits(9)
    for conf, text, *_ in birds:
        conf.write_text(text.replace('        password "secret" { id 5; };\n', ""))
        lab.run("a", "birdc", "-s", conf.with_suffix(".ctl"), "configure")
    waits(3)
    for life in lives:
        life.ends()
    waits(3)
    lives = begin()
    waits(5)
    for life in lives:
        life.ends()
    ours.process.wait(60)
    ours.until = time.time() - 9  # (the run ends ten seconds after the last packet)
