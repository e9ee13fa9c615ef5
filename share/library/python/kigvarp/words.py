"""Control symbols and packets, and what characters say."""
import ctypes
from array import array
from typing import Iterable, Iterator, NamedTuple, Union

from .library import LIBRARY, PACKET, READ, SIZE, EventC, HeaderC, NotAsked, PacketC, ReadingC, Status, SymbolC, well

# What an event is, as kigvarp.h has it.
IS_SYMBOL, IS_PACKET = 1, 2

# How many events are told at once before more room is made.
EVENTS = 1024

NO_CHARS = array("H", [0])


def wires(numbers: Iterable[int]) -> "array[int]":
    """Characters as the library takes them."""
    return numbers if isinstance(numbers, array) and numbers.typecode == "H" else array("H", numbers)


def place_of(chars: "array[int]") -> int:
    """Where characters stand in memory: somewhere, even if there are none."""
    return (chars or NO_CHARS).buffer_info()[0]


class Symbol(NamedTuple):
    """The fields of a control symbol, without its CRC."""

    stype0: int
    parameter0: int
    parameter1: int
    stype1: int
    cmd: int = 0

    def chars(self) -> "list[int]":
        """The four characters that are sent for it."""
        if not all(0 <= field < 256 for field in self):
            raise NotAsked(Status.ARGUMENT)
        room = array("H", bytes(8))
        well(LIBRARY.kigvarp_symbol_write(SymbolC(*self), room.buffer_info()[0], 4))
        return list(room)

    @classmethod
    def read(cls, numbers: Iterable[int]) -> "Symbol":
        """The symbol that four characters say."""
        chars, symbol = wires(numbers), SymbolC()
        well(LIBRARY.kigvarp_symbol_read(place_of(chars), len(chars), symbol))
        return cls(*(getattr(symbol, name) for name in cls._fields))


class Packet(NamedTuple):
    """The bytes of a packet on a link, with an ackID of 0, and the fields that they have."""

    data: bytes
    """The bytes, with CRC and pad."""
    ack: int
    """The ackID that it was sent with."""
    prio: int
    tt: int
    """The transport type: 0 if the IDs have 8 bits, and 1 if they have 16."""
    ftype: int
    source: int
    """The source ID, or 0 if the transport type is 2 or 3."""
    dest: int
    """The destination ID, or 0 if the transport type is 2 or 3."""

    @classmethod
    def write(cls, rest: bytes, *, prio: int = 0, ftype: int, source: int, dest: int, large: bool = False,
              ack: int = 0) -> bytes:
        """The bytes of the packet that has these fields, and these bytes behind them, with its ackID and its CRC."""
        if max(prio, ftype, ack) > 255 or max(source, dest) > 65535 or min(prio, ftype, source, dest, ack) < 0:
            raise NotAsked(Status.ARGUMENT)
        room, count = ctypes.create_string_buffer(PACKET), SIZE()
        header = HeaderC(prio, ftype, int(large), source, dest)
        well(LIBRARY.kigvarp_packet_write(header, ack, rest, len(rest), room, PACKET, count))
        return room.raw[:count.value]

    @classmethod
    def read(cls, data: bytes) -> "Packet":
        """The packet that bytes of a link carry."""
        told = PacketC()
        well(LIBRARY.kigvarp_packet_read(data, len(data), told))
        origin = bytes([data[0] & 3]) + data[1:]
        return cls(origin, *(getattr(told, name) for name, *_ in PacketC._fields_))


class Bad(NamedTuple):
    """Characters that are neither a symbol nor a packet."""

    cause: int


class Event(NamedTuple):
    """What characters say."""

    place: int
    """The place of the character that completes it, counted from 0."""
    what: Union[Symbol, Packet, Bad]


def _event(told: EventC) -> Event:
    """An event, as the library tells it."""
    if told.kind == IS_SYMBOL:
        return Event(told.place, Symbol(*(getattr(told.symbol, name) for name in Symbol._fields)))
    if told.kind == IS_PACKET:
        return Event(told.place, Packet.read(bytes(told.bytes[:told.length]))._replace(ack=told.ack))
    return Event(told.place, Bad(told.cause))


class Reading:
    """What characters say, as `rio decode` reads them: an iterator over the events. `cut` is whether the characters end within
    a symbol or a packet. At most 4,194,304 characters are read."""

    def __init__(self, numbers: Iterable[int]) -> None:
        chars, did, room = wires(numbers), ReadingC(), EVENTS
        if len(chars) > READ:
            raise NotAsked(Status.ARGUMENT)
        while True:
            self._events = (EventC * room)()
            well(LIBRARY.kigvarp_decode(place_of(chars), len(chars), self._events, room, did))
            if did.events <= room:
                break
            room = did.events
        self._count = did.events
        self.cut = bool(did.cut)

    def __len__(self) -> int:
        return self._count

    def __iter__(self) -> Iterator[Event]:
        return (_event(self._events[at]) for at in range(self._count))


def decode(numbers: Iterable[int]) -> Reading:
    """Reads characters."""
    return Reading(numbers)
