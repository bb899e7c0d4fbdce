"""Tests of tools/probe: on BIRD in a network namespace, and on `bfdd serve`, whose rules are proved."""
import json
import subprocess
import time

from daemons import Net, wait_for
from trials import TOP, Wrong, has, same, test

# What is seen of `serve` that isn't the engine's: a socket here gives it no TTL, and its links' ports are those of its packets.
OF_SOCKETS = {"ttl-254", "own-port-range", "own-port-one"}


def verdicts(text):
    return {row["probe"]: row["verdict"] for row in json.loads(text)["probes"]}


def probed(net, side, *words):
    """A probe from a side, tried once more where the machine was too busy for it."""
    ran = net.run(side, str(TOP / "tools/probe"), "--json", *words)
    if ran.returncode not in (0, 3) or "Traceback" in ran.stderr:
        raise Wrong(f"tools/probe {words}: status {ran.returncode}: {ran.stderr}")
    return verdicts(ran.stdout)


def twice(net, side, wrong, *words):
    """The verdicts other than right, where these are another set than was measured on a quiet machine, those of a second try."""
    for _ in range(2):
        rows = probed(net, side, *words)
        others = {name for name, verdict in rows.items() if verdict != "right"}
        if others == wrong:
            break
    return others


@test("netns", "bird")
def probe_finds_birds_faults_and_no_others(place):
    """docs/FAULTS.md: BIRD 2.0.12 is reached on port 4784. RFC 5881 section 4 is for the network's own range of ports here."""
    with Net(place) as net:
        net.bird("b")
        wait_for((place.folder / "bird-b.ctl").exists, "BIRD starts")
        same(twice(net, "a", {"port-4784"}, "10.0.0.2", "version", "length", "mult", "discriminator", "your", "ttl", "port-4784", "in-down",
                   "in-up", "poll-in", "greater", "rx-0", "demand"), {"port-4784"}, "BIRD")


@test("netns", "bird")
def probe_plays_authentication(place):
    with Net(place) as net:
        net.bird("b", 'authentication meticulous keyed sha1; password "secret" { id 5; };')
        wait_for((place.folder / "bird-b.ctl").exists, "BIRD starts")
        same(twice(net, "a", set(), "10.0.0.2", "--auth", "5:5:secret", "comes-up", "auth-missing", "auth-type", "auth-key", "auth-digest",
                   "auth-repeated", "auth-old", "auth-far", "auth-numbers", "own-sections"), set(), "BIRD with Meticulous Keyed SHA1")
        rows = probed(net, "a", "10.0.0.2", "--auth", "5:5:other", "comes-up")
        same(rows, {"comes-up": "wrong"}, "another secret")


def probed_serve(place, net, names):
    """The verdicts of some probes on a `serve` of its own, which lasts for 200 seconds at most; None where the machine was too busy."""
    script = place.file("a.script", "bfd 1\np2p 1 single 1 127.0.0.1 127.0.0.2 active 100000 100000 3 0 7\nrun\nend\n")
    with open(script, "rb") as given:
        words = ["serve", "--workers", "5", "--ticks", "199000", "--journal", "200000"]
        served = subprocess.Popen(["ip", "netns", "exec", net.names["a"], *place.program, *words], stdin=given, stdout=subprocess.DEVNULL)
    net.started.append(served)
    time.sleep(1)
    try:
        return probed(net, "a", "127.0.0.1", "--source", "127.0.0.2", "--jitter", "5", *names)
    except subprocess.TimeoutExpired:
        return None
    finally:
        served.kill()
        served.wait()


@test("netns")
def probe_finds_no_fault_of_the_engine(place):
    """`serve` does right in each row but those of its sockets. Of all rows half are asked of one run, and half of another."""
    listed = subprocess.run([TOP / "tools/probe", "--list"], capture_output=True, text=True).stdout.splitlines()
    names = [line.split()[0] for line in listed if not line.endswith((", with --auth", ", with --multihop"))]
    found = {}
    with Net(place) as net:
        for half in (names[::2], names[1::2]):
            for _ in range(2):
                rows = probed_serve(place, net, half)
                if rows and {name for name in half if rows.get(name) != "right"} == OF_SOCKETS & set(half):
                    break
            found |= {name: (rows or {}).get(name) for name in half}
    same({name for name, verdict in found.items() if verdict != "right"}, OF_SOCKETS, f"rows that aren't right of {len(found)}")
    same(len(found) > 45, True, "rows")


@test()
def probe_explains_bad_input(_place):
    for words, status, why in ((["x"], 2, "an IPv4 or IPv6 address is needed"), ([], 2, "the following arguments are required: ADDRESS"),
                               (["127.0.0.1", "--auth", "6:1:x"], 2, "TYPE:KEYID:SECRET is needed"),
                               (["127.0.0.1", "--auth", "5:1:"], 2, "TYPE:KEYID:SECRET is needed"),
                               (["127.0.0.1", "--jitter", "0"], 2, "a number of seconds from 1 to 3600 is needed"),
                               (["127.0.0.1", "nothing-like-it"], 1, "no probe of such a session is named nothing-like-it"),
                               (["127.0.0.1", "--source", "192.0.2.1"], 1, "of 192.0.2.1 can't be opened")):
        ran = subprocess.run([TOP / "tools/probe", *words], capture_output=True, text=True, timeout=60)
        same((ran.returncode, "Traceback" in ran.stderr), (status, False), f"words {words}: {ran.stderr}")
        has(ran.stderr, why)
    listed = subprocess.run([TOP / "tools/probe", "--list"], capture_output=True, text=True).stdout
    same(len(listed.splitlines()) >= 40, True, "some 40 probes")
    has(listed, "ttl-254               RFC 5881 section 5: TTL 254 is discarded over one hop", "auth-replay-late")
