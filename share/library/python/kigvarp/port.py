"""One end of a RapidIO serial link."""
import ctypes
from array import array
from typing import Iterable, NamedTuple, Optional

from .library import ANSWER, LIBRARY, PACKET, RUN, TURN, CharDidC, ClocksDidC, HeaderC, Held, RunDidC, StateC, Status
from .words import wires

OUTPUTS = ("ok", "retry-stopped", "error-stopped", "failed")
INPUTS = OUTPUTS[:3]


class CharDid(NamedTuple):
    """What a character did."""

    held: int
    """The length of the packet that was accepted, or 0."""
    freed: int
    """How many packets were freed."""
    sent: "list[int]"
    """The characters to be sent."""


class RunDid(NamedTuple):
    """What a run of characters did."""

    held: int
    """How many packets were accepted."""
    freed: int
    """How many packets were freed."""
    sent: "array[int]"
    """The characters to be sent."""


class ClocksDid(NamedTuple):
    """What clocks did."""

    held: int
    """How many packets were accepted."""
    freed: int
    """How many packets were freed."""
    fired: int
    """How many time-outs fired by themselves."""
    given: "array[int]"
    """The characters that were given, one a clock."""


class State(NamedTuple):
    """The state of a port."""

    output: str
    input: str
    outstanding: int
    waiting: bool


class Port(Held):
    """A port of 4 to 30 receive buffers, which tells its free buffers or does not.

    A character is a number: 0x000 to 0x0ff is data, 0x100 to 0x1ff is special, and 0x200 is no character. What is answered
    to characters is to be sent before what a turn sends. Use a port on one thread.
    """

    kind = "port"

    def __init__(self, buffers: int = 8, tells: bool = False) -> None:
        self._did = CharDidC()
        self._run = RunDidC()
        self._clocks = ClocksDidC()
        self._turn = array("H", bytes(2 * TURN))
        self._turn_at = self._turn.buffer_info()[0]
        if not 0 <= buffers < 256:
            raise ValueError("a port has 4 to 30 buffers")
        super().__init__(buffers, int(tells))

    def take(self, number: int) -> CharDid:
        """Takes a character. For more than some characters `got` is many times as fast."""
        self._done(LIBRARY.kigvarp_port_take(self._handle, number, self._did))
        did = self._did
        return CharDid(did.held, did.freed, list(did.chars[:did.sent]))

    def got(self, numbers: Iterable[int]) -> RunDid:
        """Takes a run of characters, of any length."""
        chars = wires(numbers)
        held, freed, sent = 0, 0, array("H")
        for start in range(0, len(chars), RUN):
            did, answers = self._got(chars[start:start + RUN] if len(chars) > RUN else chars)
            held, freed, sent = held + did.held, freed + did.freed, sent + answers
        return RunDid(held, freed, sent)

    def _got(self, chars: "array[int]") -> "tuple[RunDidC, array[int]]":
        """Takes a run that is short enough for one call."""
        room = array("H", bytes(2 * ANSWER * len(chars)))
        self._done(LIBRARY.kigvarp_port_got(self._handle, chars.buffer_info()[0], len(chars), room.buffer_info()[0],
                                            len(room), self._run))
        return self._run, room[:self._run.sent]

    def clock(self, numbers: Iterable[int]) -> ClocksDid:
        """A clock for each of a run of characters, of any length: it takes the character, and gives one. What is begun is
        given to its end, one character a clock, and an idle, 0x1bc, if there is nothing to send."""
        chars = wires(numbers)
        held, freed, fired, given = 0, 0, 0, array("H")
        for start in range(0, len(chars), RUN):
            did, more = self._clock(chars[start:start + RUN] if len(chars) > RUN else chars)
            held, freed, fired, given = held + did.held, freed + did.freed, fired + did.fired, given + more
        return ClocksDid(held, freed, fired, given)

    def _clock(self, chars: "array[int]") -> "tuple[ClocksDidC, array[int]]":
        """Clocks that are few enough for one call."""
        room = array("H", bytes(2 * len(chars)))
        self._done(LIBRARY.kigvarp_port_clock(self._handle, chars.buffer_info()[0], len(chars), room.buffer_info()[0],
                                              len(room), self._clocks))
        return self._clocks, room

    def patience(self, clocks: int) -> None:
        """Says how many clocks without an answer are too long, up to 4294967295: then a time-out fires by itself. None are
        if it is 0, as at first."""
        if not 0 <= clocks < 1 << 32:
            raise ValueError("clocks are 0 to 4294967295")
        self._done(LIBRARY.kigvarp_port_patience(self._handle, clocks))

    def turn(self) -> "array[int]":
        """Takes a turn, and answers with the characters to be sent."""
        self._done(LIBRARY.kigvarp_port_turn(self._handle, self._turn_at, TURN, self._count))
        return self._turn[:self._count.value]

    def time_out(self) -> None:
        """The time-out comes."""
        self._done(LIBRARY.kigvarp_port_time_out(self._handle))

    def send(self, rest: bytes, *, prio: int = 0, ftype: int, source: int, dest: int, large: bool = False) -> bool:
        """Puts a packet to those to be sent: its fields, and the bytes behind them, of which there are an even number and at
        most 268, or 266 behind large IDs. False: its priority has no room, and nothing was done."""
        if max(prio, ftype) > 255 or max(source, dest) > 65535 or min(prio, ftype, source, dest) < 0:
            raise ValueError("a field is out of range")
        header = HeaderC(prio, ftype, int(large), source, dest)
        status = LIBRARY.kigvarp_port_send(self._handle, header, rest, len(rest))
        if status == Status.FULL:
            return False
        self._done(status)
        return True

    def collect(self) -> Optional[bytes]:
        """Takes the first held packet of the highest priority, if there is one: the bytes of its link form."""
        room = ctypes.create_string_buffer(PACKET)
        status = LIBRARY.kigvarp_port_collect(self._handle, room, PACKET, self._count)
        if status == Status.EMPTY:
            return None
        self._done(status)
        return room.raw[:self._count.value]

    def state(self) -> State:
        """The state of the port."""
        told = StateC()
        self._done(LIBRARY.kigvarp_port_state(self._handle, told))
        return State(OUTPUTS[told.output], INPUTS[told.input], told.outstanding, bool(told.waiting))
