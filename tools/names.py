"""How the tools name what they show: diagnostics, Auth Types, sessions by their addresses, and moments by the clock on the wall.

The moments of a packet file count from its start, and when that was the file doesn't say. A file FILE.start beside it does, where
tools/capture wrote it: one line, `start 2026-11-27T10:15:00.123456Z`.
"""
import argparse
import datetime
import ipaddress
from pathlib import Path

from texts import Complaint, number_of, shown

# RFC 5880 section 4.1.
DIAGNOSTICS = ["No Diagnostic", "Control Detection Time Expired", "Echo Function Failed", "Neighbor Signaled Session Down",
               "Forwarding Plane Reset", "Path Down", "Concatenated Path Down", "Administratively Down", "Reverse Concatenated Path Down"]
AUTH_TYPES = {1: "Simple Password", 2: "Keyed MD5", 3: "Meticulous Keyed MD5", 4: "Keyed SHA1", 5: "Meticulous Keyed SHA1"}
BEGINNING = datetime.datetime(1970, 1, 1, tzinfo=datetime.timezone.utc)
FORMAT = "start %Y-%m-%dT%H:%M:%S.%fZ\n"


def diagnostic(number):
    """A diagnostic by its number and its name."""
    return f"{number} {DIAGNOSTICS[number]}" if number < len(DIAGNOSTICS) else f"{number}"


def kind_of(session):
    return {"single": "session", "multi": "session", "sbfd": "initiator"}.get(session.kind, session.kind)


def ends_of(session):
    """The addresses of a session: its own and its peer's, or a packet's way."""
    ends = [shown(session.local), shown(session.remote)]
    return " – ".join(ends) if kind_of(session) == "session" else " → ".join(reversed(ends) if session.kind == "tail" else ends)


def where_of(session):
    return "several hops" if session.kind == "multi" else f"interface {session.iface}"


# Which sessions are shown.

def network(text):
    try:
        return ipaddress.ip_network(text, strict=False)
    except ValueError as fault:
        raise argparse.ArgumentTypeError(str(fault)) from None


def discriminator(text):
    try:
        return number_of(text, 2**32 - 1)
    except ValueError:
        raise argparse.ArgumentTypeError(f"a discriminator is required, and {text!r} was given") from None


def add_choice_arguments(parser):
    parser.add_argument("--session", type=discriminator, action="append", default=[], metavar="DISCR",
                        help="only this session, and others so named")
    parser.add_argument("--peer", type=network, action="append", default=[], metavar="ADDRESS",
                        help="only the sessions with this peer, or with peers of this prefix")


def chosen(choices, script):
    """The discriminators of the sessions that these arguments choose; all where they choose none."""
    unknown = [str(discr) for discr in choices.session if discr not in script.sessions]
    if unknown:
        raise Complaint(f"{choices.file} has no session {', '.join(unknown)}")
    found = {discr for discr, session in script.sessions.items() if is_chosen(choices, session)}
    if script.sessions and not found:
        raise Complaint(f"{choices.file} has no session with a peer of {', '.join(map(str, choices.peer))}")
    return found


def is_chosen(choices, session):
    if not choices.session and not choices.peer:
        return True
    peer = ipaddress.ip_address(session.remote)
    return session.discr in choices.session or any(peer in one for one in choices.peer)


# The clock on the wall.

def start_path(path):
    return Path(f"{path}.start")


def keep_start(path, start):
    """Writes beside a packet file when its moment 0 was, microseconds since 1970; nothing before that, or beyond the year 9999."""
    try:
        start_path(path).unlink(missing_ok=True)
        if start >= 0:
            start_path(path).write_text((BEGINNING + datetime.timedelta(microseconds=start)).strftime(FORMAT))
    except OverflowError:
        return
    except OSError as fault:
        raise Complaint(f"{start_path(path)}: {fault.strerror}") from None


def start_of(path):
    """When the moment 0 of a packet file was, microseconds since 1970, or None where nothing says it."""
    try:
        if path == "-":
            return None
        text = start_path(path).read_text("ascii")
    except FileNotFoundError:
        return None
    except (OSError, UnicodeDecodeError) as fault:
        raise Complaint(f"{start_path(path)}: {getattr(fault, 'strerror', None) or 'no text'}") from None
    try:
        since = datetime.datetime.strptime(text, FORMAT).replace(tzinfo=datetime.timezone.utc) - BEGINNING
        if since < datetime.timedelta():
            raise ValueError
        return since // datetime.timedelta(microseconds=1)
    except ValueError:
        raise Complaint(f"{start_path(path)} isn't the start of a capture, as `start 2026-11-27T10:15:00.123456Z`") from None


def clock(start, moment):
    """The time of the day in UTC, and the date in front, of a moment in microseconds behind a start."""
    try:
        return (BEGINNING + datetime.timedelta(microseconds=start + moment)).strftime("%Y-%m-%d %H:%M:%S.%f")
    except OverflowError:
        return "beyond the year 9999"
