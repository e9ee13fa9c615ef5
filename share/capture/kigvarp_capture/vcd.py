"""Waveforms of a simulation: value change dumps (VCD, IEEE 1364, chapter 18)."""
import re
from collections.abc import Iterator
from dataclasses import dataclass
from typing import BinaryIO

from .layout import Layout, Sample, joined
from .refusal import Refused, note

END_OF_NAMES = b"$enddefinitions"

EDGES = {"rise": {(0, 1)}, "fall": {(1, 0)}, "both": {(0, 1), (1, 0)}}


@dataclass(frozen=True)
class Signal:
    """A signal of the dump: the code under which its values stand, and its width."""

    code: bytes
    width: int


@dataclass(frozen=True)
class Head:
    """What a dump says before its first value."""

    # what times count, and how many of it one step is
    unit: str
    scale: int
    signals: dict[str, Signal]

    def find(self, name: str) -> Signal:
        """The signal of that name, or the one whose name ends so."""
        found = {path: it for path, it in self.signals.items()
                 if path == name or path.endswith(f".{name}")}
        if not found:
            own = name.split(".")[-1].lower()
            near = [path for path in self.signals
                    if own in path.lower() or path.split(".")[-1].lower() in own]
            more = f"; there are {', '.join(sorted(near)[:8])}" if near else ""
            raise Refused(f"no signal has the name {name}{more}")
        if len(set(found.values())) > 1:
            raise Refused(f"{name} is the name of {', '.join(sorted(found)[:8])}")
        return next(iter(found.values()))


@dataclass(frozen=True)
class Wanted:
    """Which signals a capture is read from. Several of data are lanes, the first one first."""

    data: list[str]
    # none if the flags are the bits above the data
    flag: list[str]
    invalid: list[str]
    valid: str | None
    clock: str | None
    edge: str
    low_first: bool


class Lines:
    """The lines of a dump, with their numbers."""

    def __init__(self, source: BinaryIO):
        self.source, self.number = source, 0

    def next_line(self) -> bytes:
        self.number += 1
        return self.source.readline(1 << 20)

    def rest(self) -> Iterator[bytes]:
        for self.number, line in enumerate(self.source, self.number + 1):
            yield line


def read_head(lines: Lines) -> Head:
    """Reads all up to the first value."""
    text = []
    while True:
        line = lines.next_line()
        if not line:
            raise Refused("this is no value change dump: it has no $enddefinitions")
        if lines.number == 1 and not line.lstrip().startswith(b"$") and line.strip():
            raise Refused("this is no value change dump: it begins with no $ word", 1)
        text.append(line)
        if END_OF_NAMES in line:
            break
    return _head_of(b"".join(text).decode("latin-1").split())


def _head_of(words: list[str]) -> Head:
    unit, scale, scopes, signals, at = "steps", 1, [], {}, 0
    while at < len(words):
        try:
            end = words.index("$end", at)
        except ValueError:
            end = len(words)
        kind, said = words[at], words[at + 1:end]
        if kind == "$timescale":
            scale, unit = _scale("".join(said))
        elif kind == "$scope" and len(said) == 2:
            scopes.append(said[1])
        elif kind == "$upscope" and scopes:
            scopes.pop()
        elif kind == "$var" and len(said) >= 4 and said[1].isdigit():
            name = re.sub(r"\[\d+(:\d+)?\]$", "", said[3])
            signals[".".join([*scopes, name])] = Signal(said[2].encode("latin-1"), int(said[1]))
        elif kind == "$var":
            raise Refused(f"this line names no signal: {' '.join(words[at:end + 1])}")
        at = end + 1
    return Head(unit, scale, signals)


def _scale(text: str) -> tuple[int, str]:
    found = re.fullmatch(r"(1|10|100)([munpf]?s)", text)
    if not found:
        raise Refused(f"'{text}' is no time scale")
    return int(found[1]), found[2]


class Values:
    """The values of some signals, as the dump has told them so far. None: x or z. Signals with one
    code have one place."""

    def __init__(self, signals: list[Signal]):
        places: dict[bytes, int] = {}
        self.places = [places.setdefault(signal.code, len(places)) for signal in signals]
        self.now: list[int | None] = [None] * len(places)
        self.vectors = {code + feed: place for code, place in places.items()
                        for feed in (b"\n", b"\r\n", b"")}
        self.bits = {digit + code: (place, value) for code, place in self.vectors.items()
                     for digit, value in ((b"0", 0), (b"1", 1), (b"x", None), (b"z", None),
                                          (b"X", None), (b"Z", None))}


def value_of(digits: bytes, number: int) -> int | None:
    """The value of a vector, as 1010."""
    try:
        return int(digits, 2)
    except ValueError:
        if re.fullmatch(rb"[01xzXZ]+", digits):
            return None
        raise Refused(f"'{shown(digits)}' is no value", number) from None


def shown(text: bytes) -> str:
    return text[:40].decode("latin-1").strip()


class Reader:
    """Samples of a dump: at each edge of the clock, or after each change if no clock is named. At
    an edge the values count that stood before it, as a register takes them."""

    def __init__(self, source: BinaryIO, wanted: Wanted):
        self.lines = Lines(source)
        self.head = read_head(self.lines)
        self.wanted = wanted
        data = [self.head.find(name) for name in wanted.data]
        self.is_packed = not wanted.flag
        self.width, self.lanes = data[0].width * 8 // (9 if self.is_packed else 8), len(data)
        if any(it.width * 8 != self.width * (9 if self.is_packed else 8) for it in data) or self.width % 8:
            raise Refused("the signals of the data have no whole bytes, or not all as many")
        if self.is_packed and self.lanes > 1:
            raise Refused("flags above the data are read from one signal")
        self.layout = Layout(self.width // 8 * self.lanes, wanted.low_first)
        flags, invalid = self._flags(wanted.flag), self._flags(wanted.invalid)
        others = [self.head.find(name) for name in (wanted.valid, wanted.clock) if name]
        self.values = Values([*data, *flags, *invalid, *others])
        self.flags, used = len(flags), len(data) + len(flags) + len(invalid)
        self.used, (*rest,) = self.values.places[:used], self.values.places[used:]
        self.valid = rest.pop(0) if wanted.valid else None
        self.clock = rest.pop(0) if wanted.clock else None
        self.edges = EDGES[wanted.edge]
        self.is_known = False
        self._warn_of_valid()

    def _flags(self, names: list[str]) -> list[Signal]:
        found = [self.head.find(name) for name in names]
        if found and (sum(it.width for it in found) != self.layout.count
                      or len({it.width for it in found}) > 1):
            raise Refused(f"{', '.join(names)}: no flag for each of {self.layout.count} bytes")
        return found

    def _warn_of_valid(self) -> None:
        if self.wanted.valid is None:
            named = [path for path in self.head.signals if "valid" in path.lower()]
            if named:
                note(f"a signal {named[0]} is there, and no --valid: each sample counts")

    def samples(self) -> Iterator[Sample]:
        """All samples, in the order of their times."""
        time, changed, now = 0, False, self.values.now
        before, bits, vectors = now[:], self.values.bits, self.values.vectors
        for line in self.lines.rest():
            if (bit := bits.get(line)) is not None:
                place, value = bit
                changed |= now[place] != value
                now[place] = value
            elif line[0] == 35:  # '#'
                if changed and (found := self._sample(time, before)):
                    yield found
                time, changed, before = self._time(line), False, now[:]
            elif line[0] in b"bB":
                space = line.rfind(b" ")
                place = vectors.get(line[space + 1:])
                if place is not None:
                    value = value_of(line[1:space], self.lines.number)
                    changed |= now[place] != value
                    now[place] = value
            elif line[0] not in b"01xzXZ$rRsS\r\n":
                raise Refused(f"'{shown(line)}' is no value", self.lines.number)
        if changed and (found := self._sample(time, before)):
            yield found

    def _time(self, line: bytes) -> int:
        try:
            return int(line[1:]) * self.head.scale
        except ValueError:
            raise Refused(f"'{shown(line)}' is no time", self.lines.number) from None

    def _sample(self, time: int, before: list[int | None]) -> Sample | None:
        """The sample of the time that ends now."""
        taken = self.values.now
        if self.clock is not None:
            edge, taken = (before[self.clock], taken[self.clock]), before
            if edge not in self.edges:
                return None
        if self.valid is not None and taken[self.valid] != 1:
            return None
        used = [taken[place] for place in self.used]
        if None in used:
            # before the first values that are known, x and z say nothing
            if self.is_known:
                raise Refused(f"at {time} {self.head.unit} a signal of the capture is x or z",
                              self.lines.number)
            return None
        self.is_known = True
        return Sample(time, self._words(used))

    def _words(self, used: list[int]) -> list[str]:
        lanes, flags, count = self.lanes, self.flags, self.layout.count
        invalid = used[lanes + flags:]
        if self.is_packed:
            return self.layout.words(used[0] & (1 << self.width) - 1, used[0] >> self.width,
                                     joined(invalid, count // len(invalid)) if invalid else 0)
        return self.layout.words(
            joined(used[:lanes], self.width),
            joined(used[lanes:lanes + flags], count // flags),
            joined(invalid, count // len(invalid)) if invalid else 0)
