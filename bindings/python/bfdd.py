"""libbfdd through ctypes: the structs of include/bfdd.h, and the calls by their names.

    library = bfdd.load("/usr/local/lib/libbfdd.so")
    with bfdd.Engine(library) as engine:
        engine.open(b"bfd 1\n..")
"""
import ctypes
from ctypes import POINTER, Structure, byref, c_bool, c_char, c_char_p, c_size_t, c_uint8, c_uint16, c_uint32, c_uint64, c_void_p

DONE, CLOSED, MEMORY, RANGE, END, TEXT, EVENTS, TAKEN_DISCR, TAKEN_ADDRESSES, FULL, NOT_FOUND, SIZE = range(12)
PORTS = {"single": 1, "multi": 2, "echo": 3, "sbfd": 4, "answer": 5}
VERBS = {"disable": 1, "enable": 2, "reset": 3, "path": 4, "tx": 5, "rx": 6, "mult": 7, "demand": 8, "echo": 9, "key": 10}
STATES = ["AdminDown", "Down", "Init", "Up"]
CHANGED, SENT = 1, 2
HANDLED, TICKED, DROPPED, REFUSED, SHOWN = range(5)
NAMED = {"code": 1, "fault": 2, "drop": 3, "refusal": 4, "state": 5, "diagnostic": 6, "output": 7}


class Handle(Structure):
    _fields_ = [("kept", c_void_p), ("is_open", c_bool)]


class Address(Structure):
    _fields_ = [("family", c_uint32), ("bytes", c_uint8 * 16)]


class Sized(Structure):
    """A struct that begins with its size."""

    def __init__(self, **fields):
        super().__init__(size=ctypes.sizeof(self), **fields)


class Complaint(Sized):
    _fields_ = [("size", c_uint32), ("fault", c_uint32), ("line", c_uint64)]


class Session(Sized):
    _fields_ = [(name, c_uint32) for name in ("size", "kind", "discr", "other", "iface")] \
        + [("local", Address), ("remote", Address)] \
        + [(name, c_uint32) for name in ("active", "tx", "rx", "mult", "echo", "seed", "auth", "key_id", "key_len")] \
        + [("key", c_uint8 * 20)]


class Packet(Sized):
    _fields_ = [("size", c_uint32), ("port", c_uint32), ("moment", c_uint64), ("iface", c_uint32), ("sport", c_uint16),
                ("ttl", c_uint8), ("src", Address), ("dst", Address)]


class Answered(Sized):
    _fields_ = [("size", c_uint32), ("kind", c_uint32), ("code", c_uint32), ("name", c_char * 20), ("discr", c_uint32), ("state", c_uint8),
                ("diag", c_uint8), ("remote_state", c_uint8), ("poll", c_uint8), ("remote_discr", c_uint32),
                ("adv_tx", c_uint32), ("used_tx", c_uint32), ("used_rx", c_uint32), ("detect", c_uint64)]


class Session_state(Sized):  # named as the header's struct
    _fields_ = [("size", c_uint32), ("discr", c_uint32)] \
        + [(name, c_uint8) for name in ("state", "diag", "remote_state", "poll")] \
        + [(name, c_uint32) for name in ("remote_discr", "adv_tx", "used_tx", "used_rx", "peer_tx", "peer_rx", "peer_echo")] \
        + [(name, c_uint8) for name in ("peer_mult", "peer_diag", "peer_demand")] \
        + [(name, c_uint64) for name in ("detect", "detect_end", "heard", "changed", "received", "sent", "ups", "downs")] \
        + [("dropped", c_uint64 * 25)]


class Output(Sized):
    _fields_ = [("size", c_uint32), ("kind", c_uint32), ("discr", c_uint32), ("was", c_uint8), ("state", c_uint8), ("diag", c_uint8),
                ("ttl", c_uint8), ("iface", c_uint32), ("sport", c_uint16), ("dport", c_uint16), ("src", Address),
                ("dst", Address), ("len", c_uint32), ("bytes", c_uint8 * 52)]


class Arrival(Structure):
    _fields_ = [("packet", Packet), ("payload", c_char_p), ("length", c_size_t)]


class Text(Structure):
    _fields_ = [("bytes", c_char_p), ("length", c_size_t)]


def load(path):
    """The library, with the types of its calls."""
    library = ctypes.CDLL(path)
    handle = POINTER(Handle)
    for name, *types in [
            ("open", handle, c_char_p, c_size_t, POINTER(Complaint)), ("open_session", handle, POINTER(Session)),
            ("add", handle, POINTER(Session)), ("remove", handle, c_uint32),
            ("add_reflector", handle, c_uint32, c_uint32, c_uint32), ("remove_reflector", handle, c_uint32),
            ("receive", handle, POINTER(Packet), c_char_p, c_size_t), ("tick", handle, c_uint64),
            ("command", handle, c_uint64, c_uint32, c_uint32, c_uint64), ("show", handle, c_uint64, c_uint32),
            ("answer", handle, POINTER(Answered)), ("next", handle, POINTER(Output)), ("due", handle, POINTER(c_uint64)),
            ("state", handle, c_uint32, POINTER(Session_state)),
            ("packets", handle, POINTER(Arrival), c_size_t, POINTER(Answered), c_size_t, POINTER(c_size_t)),
            ("outputs", handle, POINTER(Output), c_size_t, POINTER(c_size_t)),
            ("find_name", c_uint32, c_uint32, POINTER(Text)), ("version",)]:
        call = getattr(library, f"bfdd_{name}")
        call.argtypes, call.restype = types, c_uint32
    library.bfdd_close.argtypes, library.bfdd_close.restype = [handle], None
    return library


def name(library, named, number):
    """The name of a number, of a kind as in NAMED, or None."""
    text = Text(b"", 0)
    found = library.bfdd_find_name(NAMED[named], number, byref(text)) == DONE
    return text.bytes.decode() if found else None


def address(text):
    """An address of four numbers with dots, or of 32 hexadecimal digits."""
    v4 = "." in text
    raw = bytes(map(int, text.split("."))) if v4 else bytes.fromhex(text)
    return Address(4 if v4 else 6, (c_uint8 * 16)(*raw))


class Fault(Exception):
    """A call answered this code."""


class Engine:
    """A handle. A call that is refused raises its code as a Fault."""

    def __init__(self, library):
        self.library, self.handle = library, Handle()

    def __enter__(self):
        return self

    def __exit__(self, *_why):
        self.library.bfdd_close(byref(self.handle))

    def call(self, name, *values):
        code = getattr(self.library, f"bfdd_{name}")(byref(self.handle), *values)
        if code not in (DONE, END):
            raise Fault(code)
        return code

    def open(self, text):
        self.call("open", text, len(text), byref(Complaint()))

    def add(self, session):
        self.call("add", byref(session))

    def remove(self, discr):
        self.call("remove", discr)

    def add_reflector(self, discr, rx, is_up):
        self.call("add_reflector", discr, rx, is_up)

    def remove_reflector(self, discr):
        self.call("remove_reflector", discr)

    def receive(self, moment, port, iface, src, dst, ttl, payload, sport=49152):
        packet = Packet(moment=moment, port=PORTS[port], iface=iface, src=address(src), dst=address(dst), sport=sport, ttl=ttl)
        self.call("receive", byref(packet), payload, len(payload))

    def outputs(self):
        """The outputs that are left, one by one."""
        output = Output()
        while self.call("next", byref(output)) == DONE:
            yield output

    def answer(self):
        answered = Answered()
        self.call("answer", byref(answered))
        return answered

    def state(self, discr):
        """A look at the session of this discriminator."""
        state = Session_state()
        self.call("state", discr, byref(state))
        return state

    def due(self):
        """The tick that is needed next, or None."""
        ms = c_uint64()
        return ms.value if self.call("due", byref(ms)) == DONE else None
