#!/usr/bin/env python3
"""Replays a packet file through libbfdd, and writes the report that `bfdd replay` writes.

    bindings/python/replay.py LIBBFDD.SO < examples/first.script
"""
import sys

sys.dont_write_bytecode = True
import bfdd


def happen(engine, fields):
    """One event line."""
    if fields[0] == "rx":
        moment, port, iface, src, dst, ttl, payload = fields[1:]
        payload = b"" if payload == "-" else bytes.fromhex(payload)
        engine.receive(int(moment), port, int(iface), src, dst, int(ttl), payload)
    elif fields[0] == "tick":
        engine.call("tick", int(fields[1]))
    elif fields[0] == "cmd":
        moment, discr, verb, *value = fields[1:]
        engine.call("command", int(moment), int(discr), bfdd.VERBS[verb], int(*value))
    else:
        engine.call("show", int(fields[1]), int(fields[2]))


def lines(engine):
    """What the last event gave, as report lines without their number; a packet that was sent begins with `tx`."""
    for out in engine.outputs():
        if out.kind == bfdd.CHANGED:
            yield f"state {out.discr} {bfdd.STATES[out.was]} {bfdd.STATES[out.state]} {out.diag}"
        else:
            yield f"tx {out.discr} {bytes(out.bytes[:out.len]).hex()}"
    a = engine.answer()
    if a.kind == bfdd.DROPPED:
        yield f"drop {a.name.decode()}"
    elif a.kind == bfdd.REFUSED:
        yield f"refuse {a.name.decode()}"
    elif a.kind == bfdd.SHOWN:
        yield (f"show {a.discr} {bfdd.STATES[a.state]} {a.diag} {bfdd.STATES[a.remote_state]} {a.remote_discr}"
               f" {a.adv_tx} {a.used_tx} {a.used_rx} {a.detect} {a.poll}")


def replay(library, text):
    """The report of a packet file that is in the grammar."""
    table, events = text.split("\nrun\n", 1)
    report, sent, dropped = [], 0, 0
    with bfdd.Engine(library) as engine:
        engine.open(f"{table}\nrun\nend\n".encode())
        events = events.rstrip("\n").split("\n")[:-1]
        for number, line in enumerate(events, 1):
            happen(engine, line.split(" "))
            for reported in lines(engine):
                report.append(f"{number} {reported}\n")
                sent += reported.startswith("tx ")
                dropped += reported.startswith("drop ")
    return "".join(report) + f"done {len(events)} {sent} {dropped}\n"


if __name__ == "__main__":
    if len(sys.argv) != 2:
        sys.exit(__doc__)
    sys.stdout.write(replay(bfdd.load(sys.argv[1]), sys.stdin.read()))
