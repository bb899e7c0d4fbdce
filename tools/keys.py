"""Files of keys, as `--keys` of tools/capture and tools/judge has them: a line `PEER TYPE KEYID SECRET` for each key.

Nothing here is proved.
"""
from pathlib import Path

from names import AUTH_TYPES as TYPES
from texts import Complaint, address_of


def keys_of(path):
    """The lines of a file of keys: (peer or None, type, id, secret)."""
    try:
        lines = Path(path).read_text("utf-8").splitlines()
    except (OSError, UnicodeDecodeError) as fault:
        raise Complaint(f"{path}: {getattr(fault, 'strerror', None) or 'no text'}") from None
    keys = []
    for number, line in enumerate(lines, 1):
        if not line.strip() or line.lstrip().startswith("#"):
            continue
        try:
            keys.append(key_of(line))
        except ValueError as fault:
            raise Complaint(f"{path}: line {number}: {fault}") from None
    return keys


def key_of(line):
    fields = line.split(None, 3)
    if len(fields) != 4:
        raise ValueError("it isn't ADDRESS TYPE KEYID SECRET")
    if not fields[1].isdigit() or not fields[2].isdigit():
        raise ValueError(f"the Auth Type and the Auth Key ID are numbers, and `{fields[1]}` and `{fields[2]}` stand there")
    address, kind, number, secret = fields[0], int(fields[1]), int(fields[2]), fields[3].strip()
    secret = secret_of(secret)
    if kind not in TYPES or not 0 <= number <= 255:
        raise ValueError("the Auth Type is 1 to 5, and the Auth Key ID 0 to 255")
    if not 1 <= len(secret) <= (20 if kind > 3 else 16):
        raise ValueError("the secret has 1 to 16 bytes, with SHA1 1 to 20")
    return None if address == "*" else address_of(address), kind, number, secret


def secret_of(text):
    """A secret as text between quotation marks, or in hexadecimal digits."""
    if len(text) >= 2 and text[0] == text[-1] == '"':
        return text[1:-1].encode("utf-8")
    try:
        return bytes.fromhex(text)
    except ValueError:
        raise ValueError(f'the secret {text} is neither hexadecimal digits, two for each byte, nor text between quotation marks: '
                         f'"{text}" would be that text') from None
