"""Tests of tools/script, which makes a packet file of one that a person wrote."""
import importlib.machinery
import importlib.util
import random
import subprocess
import sys

from trials import EXAMPLES, TOP, has, same, test

FRIENDLY = """# Two sessions.
p2p core single 1 10.0.0.1 10.0.0.2   active 300000 300000 3 0 0   # one hop
p2p six=9 multi 1 fd00::1\tFD00:0::2 passive 300000 300000 3 0 0

sbfd seeker away 1 10.0.0.1 10.0.0.9 100000 3 0
reflector away=900 50000 up
head tree 1 10.0.0.1 239.0.0.1 100000 3 0
tail leaf tree 1 239.0.0.1 10.0.0.1
auth core 4 5 736563726574
key core 6 00

tick 100
cmd 200000 six tx 500000
show 300000 core
"""
STRICT = """bfd 2
p2p 1 single 1 10.0.0.1 10.0.0.2 active 300000 300000 3 0 0
p2p 9 multi 1 fd000000000000000000000000000001 fd000000000000000000000000000002 passive 300000 300000 3 0 0
sbfd 2 900 1 10.0.0.1 10.0.0.9 100000 3 0
reflector 900 50000 up
head 3 1 10.0.0.1 239.0.0.1 100000 3 0
tail 4 3 1 239.0.0.1 10.0.0.1
auth 1 4 5 736563726574
key 1 6 00
run
tick 100
cmd 200000 9 tx 500000
show 300000 1
end
"""
P2P = "p2p 1 single 1 10.0.0.1 10.0.0.2 active 300000 300000 3 0 0"


def loaded(name, path):
    """A command without suffix as a module."""
    spec = importlib.util.spec_from_loader(name, importlib.machinery.SourceFileLoader(name, str(path)))
    module = importlib.util.module_from_spec(spec)
    sys.modules[name] = module
    spec.loader.exec_module(module)
    return module


@test()
def script_makes_a_packet_file(place):
    for name, text in (("LF", FRIENDLY), ("CR LF", FRIENDLY.replace("\n", "\r\n")), ("more", f"bfd 1\n{FRIENDLY}end\n\n# the end\n"),
                       ("a byte order mark", "\ufeff" + FRIENDLY)):
        written, said = place.tool("script", place.file("a", text))
        same(written, STRICT, name)
        same(said.count(" is "), 6, "names")
    has(said, "core is 1\n", "six is 9\n", "away is 900\n")
    same(place.tool("script", "-", text=STRICT.encode("ascii"))[0], STRICT, "a packet file itself")
    place.tool("script", place.folder / "a", "-o", place.folder / "b")
    same((place.folder / "b").read_text(), STRICT, "with -o")
    has(place.replay(STRICT), "done 3 ")


@test()
def script_names_the_field_and_its_range(place):
    rows = {P2P.replace("active 300000", "active 5000"): "TX is 5000, and has to be from 10,000 to 60,000,000",
            P2P.replace(" 300000 3 0", " 60000001 3 0"): "RX is 60000001, and has to be from 10,000 to 60,000,000",
            P2P.replace(" 3 0 0", " 0 0 0"): "MULT is 0, and has to be from 1 to 255",
            P2P.replace(" 3 0 0", " 3 5 0"): "ECHO is 5, and has to be",
            P2P.replace("single", "multi").replace(" 3 0 0", " 3 10000 0"): "ECHO is `10000`, and has to be 0 over several hops",
            P2P.replace("single", "one"): "HOPS is `one`, and has to be single or multi",
            P2P.replace("active", "Active"): "MODE is `Active`, and has to be active or passive",
            P2P.replace("10.0.0.1", "10.0.0"): "LOCAL is `10.0.0`, and has to be an address, as 10.0.0.1 or fd00::1",
            P2P.replace("10.0.0.2", "fd00::x"): "REMOTE is `fd00::x`", P2P.replace("p2p 1", "p2p 0"): "DISCR is 0, and has to be from 1 to",
            P2P.replace("single 1", "single 65536"): "IFACE is 65536", P2P + " 1": "`p2p` has 11 fields, DISCR HOPS IFACE",
            P2P[:-2]: "and 10 stand there", P2P.replace(" 0 0", " 0 007"): "SEED is `007`, and has to be a number from 0 to 4,294,967,295",
            f"{P2P}\nauth 1 6 5 00": "line 2: TYPE is 6, and has to be from 1 to 5",
            f"{P2P}\nauth 1 1 5 736": "SECRET has to be hexadecimal",
            f"{P2P}\nauth 1 1 5 {'00' * 17}": "SECRET has 17 bytes, and has to have 1 to 16", f"{P2P}\nauth 1 1 5 -": "SECRET has 0 bytes",
            f"{P2P}\nkey 1 5 00": "no `auth` line before", f"{P2P}\nshow 5 2": "DISCR is 2, and no session has it",
            f"{P2P}\nshow 5 core": "DISCR is `core`, and no line of a session has this name", f"{P2P}\n{P2P}": "so is that of line 1",
            f"{P2P}\n{P2P.replace('p2p 1', 'p2p 2')}": "IFACE, LOCAL, REMOTE are those of line 1", f"{P2P}\ncmd 5 1 stop": "VERB is `stop`",
            f"{P2P}\ncmd 5 1 tx": "`cmd` has 4 fields, MOMENT DISCR VERB N, and 3 stand",
            f"tick 5\n{P2P}": "stands behind `run` or an event",
            "Tick 5": "`Tick` is no word of a packet file: bfd, run",
            "tick 1152921504606847": "T is 1152921504606847, and has to be from 0",
            "end\ntick 5": "`tick` stands behind the line `end`", "bfd 3": "VERSION is 3, and has to be from 1 to 2",
            "rx 0 one 1 10.0.0.2 10.0.0.1 255 -": "PORT is `one`",
            "rx 0 single 1 10.0.0.2 10.0.0.1 255 0": "two for each byte, and they are 1"}
    for text, why in rows.items():
        written, said = place.tool("script", place.file("a", f"{text}\n"), status=1)
        same(written, "", text)
        has(said, f"a: line {text.count(chr(10)) + 1}: ", why)
    said = place.tool("script", place.file("a", "\n".join(["tick x"] * 30)), status=1)[1]
    has(said, "line 20: ", "and 10 more faults")
    has(place.tool("script", place.file("a", b"tick 1\n\xff\n"), status=1)[1], "line 2 is no text")
    has(place.tool("script", place.folder / "none", status=1)[1], "No such file")


@test()
def script_agrees_with_the_program(place):
    """What the program reads the tool takes, and it stays what it was; what the tool makes, of whatever it was made, the program reads."""
    tool, run = loaded("script", TOP / "tools/script"), loaded("tests_run", TOP / "tests/run")
    draws, counts = random.Random(20260101), [0, 0]
    files = [one.text for one in (*run.rows(), *run.cases()) if isinstance(one, run.Test)] + [path.read_bytes() for path in EXAMPLES]
    for text in [file for file in files if len(file) < 20000]:
        if text and draws.random() < 0.5:
            at = draws.randrange(len(text))
            files.append(text[:at] + bytes([draws.choice(b"0159afx -.:\n")]) + text[at + 1:])
    for text in files:
        report = subprocess.run([*place.program, "replay"], input=text, stdout=subprocess.PIPE).stdout
        lines = tool.read(place.file("a", text)) if text.isascii() else []
        made, faults, _ = tool.made_of(lines)
        if not report.startswith(b"bad "):
            same((faults, place.replay(made)), ([], report.decode("ascii")), f"a file that the program reads: {text[:200]!r}")
        elif lines and not faults:
            same(place.replay(made)[:4] == "bad ", False, f"what is made of {text[:200]!r}, which the program doesn't read")
        counts[bool(faults)] += bool(lines)
    same((counts[0] > 150, counts[1] > 100), (True, True), f"files without and with faults: {counts}")
