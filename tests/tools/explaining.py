"""Tests of tools/explain: its causes against the daemons' own logs, and against histories whose cause the file itself says."""
import json
import re
import time

import captures
from captures import ETHERNET, framed, handshake, pcap
from daemons import Net, wait_for
from runs import served_as
from trials import TOP, Wrong, has, same, test

SECRET = "73656372"


def explained(place, *words, **given):
    return json.loads(place.tool("explain", "--json", *words, **given)[0])["sessions"]


def history(table, *events):
    return "\n".join(["bfd 1", *table, "run", *events, "end", ""])


def rx(moment, words):
    return f"rx {moment} single 1 10.0.0.2 10.0.0.1 255 {captures.payload(words).hex()}"


TABLE = ["p2p 1 single 1 10.0.0.1 10.0.0.2 active 300000 400000 3 0 0"]
UP = [rx(100000, "state=Down my=7 tx=200000"), rx(200000, "state=Init my=7 your=1 tx=200000")]


@test()
def explain_shows_the_detection_time_as_a_product(place):
    """By RFC 5880 section 6.8.4: Detect Mult 4 of the peer times 400 ms, the greater of our Required Min RX and its 200 ms."""
    text = history(TABLE, *UP, rx(300000, "state=Up my=7 your=1 mult=4 tx=200000 rx=300000"), "tick 1000", "tick 1899", "tick 1905")
    change = explained(place, place.file("a.script", text))[0]["changes"][-1]
    wanted = {"from": "Up", "to": "Down", "diagnostic": 1, "cause": "expiry", "detect_mult": 4, "required_min_rx": 400000,
              "remote_min_tx": 200000, "detection_time": 1600000, "last_packet": 300000, "late": 5000, "missed": 4}
    same({name: change[name] for name in wanted}, wanted, "the facts")
    said = place.tool("explain", place.file("a.script", text))[0]
    has(" ".join(said.split()), "Up to Down", "the last one came at 0.300000 (event 3), 1.605 s before",
        "1.6 s: the peer's Detect Mult 4 times 400 ms, the greater of the own Required Min RX in use (400 ms) and the peer's Desired "
        "Min TX (200 ms)",
        "It ended at 1.900000, and the tick at 1.905000 found it so, 5 ms late", "the peer owed at least 4 packets")


@test()
def explain_names_each_cause(place):
    rows = [([rx(300000, "state=Down my=7 your=1 diag=1")], "peer", "The peer said Down, diagnostic 1 (Control Detection Time Expired)",
             "the peer heard nothing from this side"),
            ([rx(300000, "state=Down my=9 your=0")], "peer", "My Discriminator changed from 7 to 9: it restarted",
             "Your Discriminator is 0"),
            ([rx(300000, "state=AdminDown my=7 your=1 diag=7")], "peer", "The peer said AdminDown", "taken out of service there"),
            (["cmd 300000 1 disable"], "disable", "command `disable` (event 3", "6.8.16"),
            (["cmd 300000 1 reset"], "reset", "command `reset` (event 3", "6.8.15"),
            (["cmd 250000 1 disable", "cmd 300000 1 enable"], "enable", "command `enable` (event 4", "6.8.16"),
            ([rx(300000, "state=Up my=7 your=1 mult=1 tx=500000"), rx(400000, "state=Up my=7 your=1 version=2"), "tick 800"], "expiry",
             "1 packet came and was dropped, which may be the reason: 1 by Version", "Detection Time was 500 ms"),
            ([rx(300000, "state=Up my=7 your=1 mult=1 tx=500000"), "tick 800", rx(900000, "state=Down my=9 diag=0")], None,
             "with another My Discriminator (9 after 7): the peer restarted")]
    for events, cause, *parts in rows:
        path = place.file("a.script", history(TABLE, *UP, *events))
        if cause:
            same(explained(place, path)[0]["changes"][-1]["cause"], cause, str(events))
        has(" ".join(place.tool("explain", path)[0].split()), *parts)


@test()
def explain_names_echo_packets_that_are_missing(place):
    script = TOP / "examples/echo.script"  # (its comment in examples/README.md: packets 4, 5 and 6 don't come back)
    change = explained(place, script)[0]["changes"][-1]
    same((change["cause"], change["diagnostic"], [row["number"] for row in change["outstanding"]]), ("echo", 2, [4, 5, 6]), "outstanding")


@test()
def explain_says_why_a_session_never_came_up(place):
    table = [*TABLE, f"auth 1 5 5 {SECRET}"]
    for words, name in (("auth=5 key=6 secret=73656372 seq=1", "AuthKey"), ("auth=5 key=5 secret=00 seq=1", "AuthDigest"),
                        ("", "AuthMissing")):
        text = history(table, rx(100000, f"state=Down my=7 {words}"), rx(200000, f"state=Down my=7 {words}"), "tick 1000")
        said = place.tool("explain", place.file("a.script", text))[0]
        has(" ".join(said.split()), f"It never came Up: all 2 packets that came were dropped: 2 by {name}")
    has(place.tool("explain", place.file("a.script", history(TABLE, "tick 5000")))[0], "It never came Up: no packet came for it")


@test()
def explain_asks_without_changing_anything(place):
    """The values of a session are those of `show` lines that stand in the file already, and those that the tool puts in change no line."""
    for name in ("demand", "keys", "flap", "multipoint", "seamless", "group", "auth", "echo"):
        script = TOP / f"examples/{name}.script"
        sessions = explained(place, script, "--report", script.with_suffix(".report"))
        states = [line.split() for line in script.with_suffix(".report").read_text().split("\n") if " state " in line]
        same(sum(len(session["changes"]) for session in sessions), len(states), name)
        for number, _, discr, old, new, diag in states:
            found = [change for session in sessions if session["session"] == int(discr) for change in session["changes"]
                     if (change["event"], change["from"], change["to"], change["diagnostic"]) == (int(number), old, new, int(diag))]
            same(len(found), 1, f"{name}: event {number}")


@test()
def explain_asks_alone_what_would_change_something(place):
    """By the F at 1.99 s a Desired Min TX of 10 ms is in use at once (RFC 5880 section 6.8.3), so a packet is due that a question there
    would send before its tick. The report of the file, which is given, has to stay as it is."""
    slow = "state=Up my=7 your=1 rx=10000"
    text = history(["p2p 1 single 1 10.0.0.1 10.0.0.2 active 1000000 1000000 3 0 0"], rx(100000, "state=Down my=7 rx=10000"),
                   rx(200000, "state=Init my=7 your=1 rx=10000"), "tick 1000", rx(1001000, f"{slow} F"), "tick 1900", rx(1950000, slow),
                   "cmd 1960000 1 tx 10000", rx(1990000, f"{slow} F"), "tick 2000", "tick 2021", "tick 6000")
    report = place.file("a.report", place.replay(text))
    session = explained(place, place.file("a.script", text), "--report", report)[0]
    same((session["changes"][-1]["detection_time"], session["summary"]["used_min_tx"]), (3000000, [1000000, 10000, 1000000]), "the answers")


@test()
def explain_takes_a_served_text(place):
    script = TOP / "examples/flap.script"
    live, served = served_as(script, 2)
    live, served = place.file("live.script", live), place.file("a.served", served)
    same([change["cause"] for change in explained(place, live, "--served", served)[0]["changes"]],
         [change["cause"] for change in explained(place, script)[0]["changes"]], "the causes")


@test()
def explain_explains_bad_input(place):
    script = TOP / "examples/first.script"
    has(place.tool("explain", script, "--session", "9", status=1)[1], "has no session 9")
    has(place.tool("explain", script, "--session", "x", status=2)[1], "a discriminator, 1 to 4294967295, is needed")
    has(place.tool("explain", place.file("b", "x\n"), status=1)[1], "line 1 is in no packet file")
    has(place.tool("explain", place.folder / "none", status=1)[1], "No such file")
    report = script.with_suffix(".report").read_text().replace("Init Down 1", "Init Down 3")
    said = place.tool("explain", script, "--report", place.file("r", report), status=1)[1]
    has(said, "event 3 of ",
        "the program reports state 1 Init Down 1")


@test("dpkt")
def explain_agrees_with_the_log_of_frr(place):
    """examples/live/down.pcap: FRR on fd00::1 and BIRD on fd00::2, while packets from BIRD to FRR were cut off from second 3.99 to 6.5.
    Their logs, in seconds from the first frame, have: FRR `init -> up` at 0.722, `up -> down reason:control-expired` at 4.777,
    `down -> up` at 7.090; BIRD `Down to Up` at 0.721, `Up to Down` at 4.777, `Down to Init` at 4.875, `Init to Up` at 7.089."""
    logs = {"fd00::1": [(0.722, "Up", "handshake"), (4.777, "Down", "expiry"), (7.090, "Up", "handshake")],
            "fd00::2": [(0.721, "Up", "handshake"), (4.777, "Down", "peer"), (7.089, "Up", "handshake")]}
    for local, logged in logs.items():
        script = place.tool("capture", "--local", local, TOP / "examples/live/down.pcap")[0]
        changes = [change for change in explained(place, place.file("a.script", script))[0]["changes"]
                   if change["to"] == "Up" or change["from"] == "Up"]
        same([(change["to"], change["cause"]) for change in changes], [row[1:] for row in logged], local)
        for change, (moment, state, _) in zip(changes, logged):
            if abs(change["moment"] - moment) > 0.02:
                raise Wrong(f"{local}: {state} at {change['moment']}, and the log has {moment}")
    same(changes[1]["peer_diag"], 1, "FRR's diagnostic")


@test("dpkt", "netns", "bird", "tcpdump")
def explain_and_judge_agree_with_two_birds(place):
    """A BIRD is killed and started again: the other's log has the same changes, and both ends of the capture are right."""
    with Net(place) as net, net.captured("a") as path:
        net.bird("a")
        time.sleep(1)  # (a BIRD that doesn't listen yet misses the other's first packet, which the capture has)
        other = net.bird("b")
        log = place.folder / "bird-a.log"
        wait_for(lambda: log.exists() and " to Up" in log.read_text(), "the BIRDs come Up")
        time.sleep(2)
        other.kill()
        other.wait()
        wait_for(lambda: "Up to Down" in log.read_text(), "the session goes Down")
        time.sleep(1)
        net.bird("b")
        wait_for(lambda: log.read_text().count(" to Up") == 2, "the BIRDs come Up again")
        time.sleep(2)
        path, logged = str(path), net.changes("a", path)
    script = place.tool("capture", "--local", "10.0.0.1", "--tick", "1", path)[0]
    changes = explained(place, place.file("a.script", script))[0]["changes"]
    same([(change["from"], change["to"]) for change in changes], [row[1:] for row in logged], "the changes")
    for change, (moment, *_) in zip(changes, logged):
        if abs(change["moment"] - moment) > 0.1:
            raise Wrong(f"{change['from']} to {change['to']} at {change['moment']}, and BIRD's log has {moment:.3f}")
    down = next(change for change in changes if change["from"] == "Up")
    same((down["cause"], down["detection_time"]), ("expiry", 900000), "the cause")
    has(down["text"], "with another My Discriminator")
    for local in ("10.0.0.1", "10.0.0.2"):
        has(place.tool("judge", "--local", local, "--slack", "100", path)[0], "0 findings wrong, 0 undecided")


@test("dpkt", "netns", "bird", "keepalived", "tcpdump")
def explain_agrees_with_the_log_of_keepalived(place):
    """A BIRD is killed and started again; keepalived's log names each state that it enters, with its diagnostic."""
    with Net(place) as net, net.captured("b") as path:
        net.keepalived("b")
        other, log = net.bird("a"), place.folder / "keepalived.log"
        wait_for(lambda: "Entering Up state" in log.read_text(), "keepalived comes Up")
        time.sleep(1.5)
        other.kill()
        other.wait()
        wait_for(lambda: "Entering Down state" in log.read_text(), "it goes Down")
        time.sleep(1)
        net.bird("a")
        wait_for(lambda: log.read_text().count("Entering Up state") == 2, "it comes Up again")
        time.sleep(1)
        said = log.read_text()
    causes = {"": "handshake", "Control Detection Time Expired": "expiry", "Neighbor Signaled Session Down": "peer"}
    entered = re.findall(r"Entering (Up|Down) state(?: \(Local diagnostic - ([^,]+),)?", said)
    logged = [(state, causes.get(diag, diag)) for state, diag in entered]
    same(logged, [("Up", "handshake"), ("Down", "expiry"), ("Up", "handshake")], "keepalived's log")
    script = place.tool("capture", "--local", "10.0.0.2", "--tick", "1", path)[0]
    changes = explained(place, place.file("a.script", script))[0]["changes"]
    same([(change["to"], change["cause"]) for change in changes if "Up" in (change["from"], change["to"])][:2], logged[:2], "the causes")
    # keepalived has another discriminator after each Down, and a packet file has one: the replay's session stays Down, and says why
    same(set(explained(place, place.file("a.script", script))[0]["summary"]["dropped"]), {"YourUnknown"}, "what is dropped afterwards")


@test("dpkt")
def explain_and_capture_take_a_handshake(place):
    path = place.file("a.pcap", pcap([(moment, framed(ETHERNET, ip)) for moment, ip in handshake()]))
    script = place.tool("capture", "--local", "10.0.0.1", path)[0]
    changes = explained(place, "-", text=script.encode("ascii"))[0]["changes"]
    same([change["cause"] for change in changes], ["handshake", "handshake"], "causes")
