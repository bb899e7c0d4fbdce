#!/usr/bin/env python3
"""Writes the bytes of a control packet, as an `rx` line of a case has them, or the fields of such bytes.

    tests/packet.py state=Up my=7 your=1 tx=300000 rx=300000 P        the payload in hexadecimal digits
    tests/packet.py auth=3 key=5 secret=736563726574 seq=77           the same with an authentication section, sealed
    tests/packet.py 20e003180000000700000001000493e0000493e000000000  the words that write these bytes

The words, in any order; those that aren't there have the value in brackets (RFC 5880 section 4.1; intervals in microseconds):

    version=N (1)  diag=N (0)  state=AdminDown|Down|Init|Up (Down)  mult=N (3)  length=N (as many bytes as there are)
    P F C A D M    the bits that are set (none; A with auth)
    my=N (7)  your=N (0)  tx=N (1000000)  rx=N (1000000)  echo=N (0)
    auth=TYPE (none)  key=ID (5)  secret=HEX (none)  seq=N (0)    the section (sections 4.2 to 4.4) and its digest (section 6.7)
    authlen=N  digest=HEX    in place of the right ones
    more=HEX       bytes behind all that; Length counts them
"""
import hashlib
import sys

STATES = ["AdminDown", "Down", "Init", "Up"]
BITS = {"P": 0x20, "F": 0x10, "C": 0x08, "A": 0x04, "D": 0x02, "M": 0x01}
WORDS = ("my", "your", "tx", "rx", "echo")
USUAL = {"version": 1, "diag": 0, "state": "Down", "mult": 3, "length": None, "my": 7, "your": 0, "tx": 1000000, "rx": 1000000,
         "echo": 0, "auth": None, "key": 5, "secret": b"", "seq": 0, "authlen": None, "digest": None, "more": b""}


def payload(bits="", **given):
    """The bytes of a packet with these bits, as "PF", and these fields, named as above."""
    field = USUAL | given
    section = section_of(field)
    flags = sum(BITS[bit] for bit in set(bits) | ({"A"} if section else set()))
    length = 24 + len(section) + len(field["more"])
    head = bytes([field["version"] << 5 | field["diag"], STATES.index(field["state"]) << 6 | flags, field["mult"],
                  length if field["length"] is None else field["length"]])
    text = head + b"".join(field[word].to_bytes(4, "big") for word in WORDS) + section + field["more"]
    return sealed(text, field) if section else text


def section_of(field):
    """The authentication section, with the key in the digest's place."""
    if field["auth"] is None:
        return b""
    if field["auth"] == 1:
        rest = field["secret"]
    else:
        rest = bytes(1) + field["seq"].to_bytes(4, "big") + field["secret"].ljust(digest_bytes(field), b"\0")
    length = 3 + len(rest) if field["authlen"] is None else field["authlen"]
    return bytes([field["auth"], length, field["key"]]) + rest


def digest_bytes(field):
    return 16 if field["auth"] in (2, 3) else 20


def sealed(text, field):
    """The digest of the first Length bytes takes the key's place."""
    if field["auth"] == 1:
        return text
    digest = field["digest"]
    if digest is None:
        digest = (hashlib.md5 if digest_bytes(field) == 16 else hashlib.sha1)(text[:text[3]]).digest()
    return text[:32] + digest + text[32 + digest_bytes(field):]


def words_of(text):
    """The words that write these bytes, but for those that need not stand."""
    field = {"version": text[0] >> 5, "diag": text[0] & 31, "state": STATES[text[1] >> 6], "mult": text[2], "length": text[3]}
    field |= {word: int.from_bytes(text[at:at + 4], "big") for word, at in zip(WORDS, range(4, 24, 4))}
    field["length"] = None if text[3] == len(text) else text[3]
    bits = [bit for bit in BITS if text[1] & BITS[bit]]
    always = ("state", "my", "your", "tx", "rx")
    shown = [f"{name}={value}" for name, value in field.items() if name in always or value != USUAL[name]]
    return " ".join(shown + bits + ([f"more={text[24:].hex()}"] if len(text) > 24 else []))


def field_of(word):
    """The name and the value that a word of the command line gives."""
    name, _, value = word.partition("=")
    if name not in USUAL or not value:
        raise ValueError(f"{word} is no word of a packet")
    if name == "state":
        return name, value if value in STATES else STATES[int(value)]
    return name, bytes.fromhex(value) if name in ("secret", "digest", "more") else int(value)


def text_of(words):
    """The bytes that the words of a command line write."""
    fields = dict(field_of(word) for word in words if word not in BITS)
    return payload("".join(word for word in words if word in BITS), **fields)


def main(words):
    if words[0] in ("-h", "--help"):
        return print(__doc__.strip())
    try:
        if len(words) == 1 and "=" not in words[0] and words[0] not in BITS:
            print(words_of(bytes.fromhex(words[0])))
        else:
            print(text_of(words).hex())
    except (ValueError, IndexError, OverflowError) as fault:
        sys.exit(f"tests/packet.py: {fault}\n\n{__doc__}")


if __name__ == "__main__":
    main(sys.argv[1:] or sys.exit(__doc__))
