"""What the diagnostics, the discard tests and the refusals of a report mean, each with the section of its RFC.

tools/explain, tools/judge and tools/probe say these words. Nothing here is proved.
"""
from names import DIAGNOSTICS

# The discard tests of a report: what is true of a packet that fails one, and where the RFCs say that it is discarded.
DROPS = {
    "Short": ("the payload is shorter than 4 bytes", "RFC 5880 section 6.8.6"),
    "Version": ("Version isn't 1", "RFC 5880 section 6.8.6"),
    "LengthMin": ("Length is below 24, or below 26 with the A bit", "RFC 5880 section 6.8.6"),
    "LengthOver": ("Length is greater than the payload", "RFC 5880 section 6.8.6"),
    "DetectMult": ("Detect Mult is 0", "RFC 5880 section 6.8.6"),
    "Multipoint": ("the M bit is set", "RFC 5880 section 6.8.6"),
    "MyDiscr": ("My Discriminator is 0", "RFC 5880 section 6.8.6"),
    "YourUnknown": ("Your Discriminator names no session of the receiver", "RFC 5880 section 6.8.6"),
    "YourZeroState": ("Your Discriminator is 0 while State is Init or Up", "RFC 5880 section 6.8.6"),
    "NoSession": ("Your Discriminator is 0 and no session has the addresses", "RFC 5880 section 6.8.6"),
    "Ttl": ("the TTL isn't 255 on a session over one hop", "RFC 5881 section 5"),
    "AuthUnexpected": ("the A bit is set and the session uses no authentication", "RFC 5880 section 6.8.6"),
    "AuthMissing": ("the A bit is clear and the session uses authentication", "RFC 5880 section 6.8.6"),
    "AuthType": ("the Auth Type isn't the session's", "RFC 5880 section 6.7"),
    "AuthKey": ("no key of the session has the Auth Key ID", "RFC 5880 section 6.7"),
    "AuthLen": ("Auth Len isn't that of the Auth Type and the key", "RFC 5880 section 6.7"),
    "AuthSeq": ("the sequence number lies outside the window", "RFC 5880 sections 6.7.3 and 6.7.4"),
    "AuthDigest": ("the digest or the password is wrong", "RFC 5880 section 6.7"),
    "AdminDown": ("the session is AdminDown", "RFC 5880 section 6.8.6"),
    "NotDemand": ("the D bit is clear in a packet to a reflector", "RFC 7880 section 7.2"),
    "MultipointYour": ("the M bit is set and Your Discriminator isn't 0", "RFC 8562 section 5.13"),
    "NoTail": ("the M bit is set and no tail has its head, interface and addresses", "RFC 8562 section 5.7"),
    "EchoForm": ("an echo packet isn't of the form that this engine sends", "RFC 5880 section 6.8.8"),
    "EchoStale": ("an echo packet came back twice, late, or after a later one", "RFC 5880 section 6.8.8"),
}


def diagnostic(number):
    """A diagnostic by number and name."""
    return f"{number} ({DIAGNOSTICS[number] if number < len(DIAGNOSTICS) else 'reserved'})"


def drops_in_words(counts):
    """Dropped packets by cause, as `3 by AuthSeq (the sequence number lies outside the window, RFC 5880 ..)`."""
    return "; ".join(f"{count} by {name}" + (" ({}, {})".format(*DROPS[name]) if name in DROPS else "")
                     for name, count in sorted(counts.items(), key=lambda row: (-row[1], row[0])))


def seconds(moment):
    """A moment in seconds, to the microsecond."""
    return f"{moment // 1000000}.{moment % 1000000:06}"


def span(microseconds):
    """A length of time, as 300 ms or 4.098312 s."""
    if microseconds < 1000000:
        return f"{microseconds / 1000:.3f}".rstrip("0").rstrip(".") + " ms"
    return f"{microseconds // 1000000}.{microseconds % 1000000:06}".rstrip("0").rstrip(".") + " s"


def counted(number, noun):
    """A number of things, as `1 packet` or `3 packets`."""
    return f"{number} {noun}{'' if number == 1 else 's'}"
