"""The shared library, and what its calls take and answer."""
import ctypes
import ctypes.util
import os
from enum import IntEnum
from pathlib import Path

# Room that calls need, in characters or bytes, as kigvarp.h has it.
ANSWER = 4
TURN = 284
PACKET = 276
RUN = 65536
READ = 4194304
SCRIPT = 16777216

# How many bytes of an answer are taken at once.
PIECE = 1 << 16


class Status(IntEnum):
    """What a call answers."""

    OK = 0
    CLOSED = 1
    ARGUMENT = 2
    OPEN = 3
    FULL = 4
    EMPTY = 5
    NO_MEMORY = 6
    UNDETECTED = 7
    CUT = 8
    SPENT = 9
    BAD = 10
    UNLAWFUL = 11
    REFUSED = 12


class KigvarpError(Exception):
    """A call was not done, or not to its end: `status` says why."""

    def __init__(self, status: Status, text: str = "") -> None:
        super().__init__(status.name.lower().replace("_", " "))
        self.status = status
        self.text = text


class Closed(KigvarpError):
    """The port, the fabric or the checker is closed."""


class NotAsked(KigvarpError, ValueError):
    """What was passed is out of range. Nothing was done."""


class OutOfMemory(KigvarpError, MemoryError):
    """Memory was refused: `text` is what there is of an answer."""


class Spent(KigvarpError):
    """The fabric or the checker answers no further line: `text` is the last answer if this line ended a fabric."""


class Broken(KigvarpError, ValueError):
    """The characters are no symbol, or the bytes carry no packet."""


class Hit(KigvarpError):
    """A reason hits a line: `line` is its number, counted from 1, and `reason` the least reason that hits it."""

    def __init__(self, status: Status, line: int, reason: int) -> None:
        super().__init__(status)
        self.args = (f"{self.args[0]} {line} {reason}",)
        self.line = line
        self.reason = reason


class Refused(Hit):
    """A reason hits a line of the set-up."""


class Unlawful(Hit):
    """A reason hits a line of the trace."""


ERRORS = {Status.CLOSED: Closed, Status.ARGUMENT: NotAsked, Status.NO_MEMORY: OutOfMemory, Status.CUT: OutOfMemory,
          Status.UNDETECTED: Spent, Status.SPENT: Spent, Status.BAD: Broken}


class Handle(ctypes.Structure):
    """What a port or a fabric is held by."""

    _fields_ = [("at", ctypes.c_void_p), ("open", ctypes.c_size_t)]


class CharDidC(ctypes.Structure):
    """struct kigvarp_char_did"""

    _fields_ = [("held", ctypes.c_uint32), ("freed", ctypes.c_uint32), ("sent", ctypes.c_uint32),
                ("chars", ctypes.c_uint16 * ANSWER)]


class RunDidC(ctypes.Structure):
    """struct kigvarp_run_did"""

    _fields_ = [("held", ctypes.c_uint32), ("freed", ctypes.c_uint32), ("sent", ctypes.c_uint32)]


class ClocksDidC(ctypes.Structure):
    """struct kigvarp_clocks_did"""

    _fields_ = [(name, ctypes.c_uint32) for name in ("clocks", "held", "freed", "fired")]


class HeaderC(ctypes.Structure):
    """struct kigvarp_header"""

    _fields_ = [("prio", ctypes.c_uint8), ("ftype", ctypes.c_uint8), ("large", ctypes.c_uint8),
                ("source", ctypes.c_uint16), ("dest", ctypes.c_uint16)]


class StateC(ctypes.Structure):
    """struct kigvarp_state"""

    _fields_ = [("output", ctypes.c_uint32), ("input", ctypes.c_uint32), ("outstanding", ctypes.c_uint32),
                ("waiting", ctypes.c_uint32)]


class SymbolC(ctypes.Structure):
    """struct kigvarp_symbol"""

    _fields_ = [(name, ctypes.c_uint8) for name in ("stype0", "parameter0", "parameter1", "stype1", "cmd")]


class EventC(ctypes.Structure):
    """struct kigvarp_event"""

    _fields_ = [("place", ctypes.c_uint32), ("kind", ctypes.c_uint32), ("length", ctypes.c_uint32), ("symbol", SymbolC),
                ("ack", ctypes.c_uint8), ("cause", ctypes.c_uint8), ("bytes", ctypes.c_uint8 * PACKET)]


class ReadingC(ctypes.Structure):
    """struct kigvarp_reading"""

    _fields_ = [("events", ctypes.c_uint32), ("cut", ctypes.c_uint32)]


class PacketC(ctypes.Structure):
    """struct kigvarp_packet"""

    _fields_ = [("ack", ctypes.c_uint8), ("prio", ctypes.c_uint8), ("tt", ctypes.c_uint8), ("ftype", ctypes.c_uint8),
                ("source", ctypes.c_uint16), ("dest", ctypes.c_uint16)]


class HitC(ctypes.Structure):
    """struct kigvarp_hit"""

    _fields_ = [("line", ctypes.c_uint32), ("reason", ctypes.c_uint32)]


class AskC(ctypes.Structure):
    """struct kigvarp_ask"""

    _fields_ = [(name, ctypes.c_uint8) for name in ("prio", "hop", "tid", "large", "write")]
    _fields_ += [("dest", ctypes.c_uint16), ("offset", ctypes.c_uint32), ("value", ctypes.c_uint32)]


class OwnC(ctypes.Structure):
    """struct kigvarp_own"""

    _fields_ = [("write", ctypes.c_uint8), ("offset", ctypes.c_uint32), ("value", ctypes.c_uint32)]


class ReplyC(ctypes.Structure):
    """struct kigvarp_reply"""

    _fields_ = [("kind", ctypes.c_uint32), ("value", ctypes.c_uint32)]


BYTES = ctypes.c_char_p
ROOM = ctypes.c_void_p
SIZE = ctypes.c_size_t

# The arguments of each call behind its handle.
CALLS = {
    "port_open": (ctypes.c_uint8, ctypes.c_uint8),
    "port_close": (),
    "port_line": (BYTES, SIZE),
    "port_text": (ROOM, SIZE, ctypes.POINTER(SIZE)),
    "port_take": (ctypes.c_uint16, ctypes.POINTER(CharDidC)),
    "port_got": (ROOM, SIZE, ROOM, SIZE, ctypes.POINTER(RunDidC)),
    "port_clock": (ROOM, SIZE, ROOM, SIZE, ctypes.POINTER(ClocksDidC)),
    "port_patience": (ctypes.c_uint32,),
    "port_turn": (ROOM, SIZE, ctypes.POINTER(SIZE)),
    "port_time_out": (),
    "port_send": (ctypes.POINTER(HeaderC), BYTES, SIZE),
    "port_collect": (ROOM, SIZE, ctypes.POINTER(SIZE)),
    "port_state": (ctypes.POINTER(StateC),),
    "fabric_open": (),
    "fabric_close": (),
    "fabric_line": (BYTES, SIZE),
    "fabric_ask": (BYTES, SIZE, ctypes.POINTER(AskC), ctypes.POINTER(ReplyC)),
    "fabric_own": (BYTES, SIZE, ctypes.POINTER(OwnC), ctypes.POINTER(ReplyC)),
    "fabric_text": (ROOM, SIZE, ctypes.POINTER(SIZE)),
    "checker_open": (BYTES, SIZE, ctypes.POINTER(HitC)),
    "checker_close": (),
    "checker_take": (BYTES, SIZE, ctypes.POINTER(HitC)),
    "checker_end": (ctypes.POINTER(HitC), ctypes.POINTER(ctypes.c_uint32)),
}

# All arguments of each call without a handle.
PLAIN = {
    "decode": (ROOM, SIZE, ctypes.POINTER(EventC), SIZE, ctypes.POINTER(ReadingC)),
    "symbol_write": (ctypes.POINTER(SymbolC), ROOM, SIZE),
    "symbol_read": (ROOM, SIZE, ctypes.POINTER(SymbolC)),
    "packet_write": (ctypes.POINTER(HeaderC), ctypes.c_uint8, BYTES, SIZE, ROOM, SIZE, ctypes.POINTER(SIZE)),
    "packet_read": (BYTES, SIZE, ctypes.POINTER(PacketC)),
}


def library_file() -> str:
    """Where the shared library is."""
    if named := os.environ.get("KIGVARP_LIBRARY"):
        return named
    beside = Path(__file__).resolve().parent / "libkigvarp.so.0"
    return str(beside) if beside.exists() else ctypes.util.find_library("kigvarp") or "libkigvarp.so.0"


def load() -> ctypes.CDLL:
    """The library, whose calls know their arguments."""
    loaded = ctypes.CDLL(library_file())
    handled = {name: (ctypes.POINTER(Handle), *arguments) for name, arguments in CALLS.items()}
    for name, arguments in (handled | PLAIN).items():
        call = getattr(loaded, f"kigvarp_{name}")
        call.argtypes = arguments
        call.restype = ctypes.c_uint32
    return loaded


LIBRARY = load()


def well(status: int) -> None:
    """Raises what a status says that is not well."""
    if status:
        raise ERRORS.get(Status(status), KigvarpError)(Status(status))


def within(bits: int, *fields: int) -> None:
    """Raises, unless each field is a number of so many bits."""
    if not all(0 <= field < 1 << bits for field in fields):
        raise NotAsked(Status.ARGUMENT)


class Handled:
    """What is open until it is closed."""

    kind = ""

    def __init__(self) -> None:
        self._handle = Handle()

    def _call(self, name: str, *arguments: object) -> Status:
        return Status(getattr(LIBRARY, f"kigvarp_{self.kind}_{name}")(self._handle, *arguments))

    def close(self) -> None:
        """Closes it, and gives its memory back. A second close does nothing."""
        self._call("close")

    def __enter__(self):
        return self

    def __exit__(self, *how: object) -> None:
        self.close()

    def __del__(self) -> None:
        if getattr(self, "_handle", None) is not None:
            self.close()


class Held(Handled):
    """A port or a fabric, which answers lines."""

    def __init__(self, *arguments: int) -> None:
        super().__init__()
        self._count = SIZE()
        self._line = getattr(LIBRARY, f"kigvarp_{self.kind}_line")
        self._text = getattr(LIBRARY, f"kigvarp_{self.kind}_text")
        self._done(self._call("open", *arguments))

    def _done(self, status: int) -> None:
        """Raises what a status says that is not well, with the text that waits."""
        if status:
            fault = Status(status)
            text = "" if fault in (Status.CLOSED, Status.ARGUMENT, Status.OPEN) else self._answer()
            raise ERRORS.get(fault, KigvarpError)(fault, text)

    def _answer(self) -> str:
        """The text that waits."""
        pieces, room = [], ctypes.create_string_buffer(PIECE)
        while self._text(self._handle, room, PIECE, self._count) == 0 and self._count.value:
            pieces.append(room.raw[:self._count.value])
        return b"".join(pieces).decode()

    def ask(self, line: str) -> "list[str]":
        """Gives a line, and answers with the lines of its answer, without the last one, which is `ok`."""
        text = line.encode()
        self._done(self._line(self._handle, text, len(text)))
        return self._answer().splitlines()[:-1]
