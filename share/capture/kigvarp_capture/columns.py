"""Tables: a line a clock, in columns with or without names, as logic analysers export them."""
import csv
import re
from collections.abc import Iterable, Iterator
from dataclasses import dataclass

from .layout import Layout, Sample, flags_of, joined
from .refusal import Refused, note

NUMBER = {"hex": (r"(?:0x)?([0-9a-f]+)h?", 16), "bin": (r"(?:0b)?([01]+)b?", 2),
          "dec": (r"([0-9]+)d?", 10)}
# So many lines a head may have.
HEAD_LINES = 64


@dataclass(frozen=True)
class Wanted:
    """Which columns a capture is read from: names, or numbers from 1 on. Several of data are lanes,
    the first one first. Flags are a column for each of data, or one for all."""

    data: list[str]
    flag: list[str]
    invalid: list[str]
    valid: str | None
    time: str | None
    # the flags stand above the data, in one number
    packed: bool
    bytes: int | None
    head: int | None
    radix: str
    low_first: bool
    # nothing is named: a line has data and flags, and perhaps what is invalid, and no other column
    plain: bool = False


def rows_of(lines: Iterable[str]) -> Iterator[tuple[int, list[str]]]:
    """The cells of each line that has some, and its number. Commas, semicolons or tabs part them,
    or else spaces."""
    delimiter = None
    for number, line in enumerate(lines, 1):
        line = line.rstrip("\r\n")
        if "\0" in line:
            raise Refused("this is no text", number)
        if not line.strip():
            continue
        if delimiter is None or delimiter not in line:
            delimiter = next((it for it in ",;\t" if it in line), None)
        if delimiter is None:
            yield number, line.split()
        else:
            yield number, [it.strip() for it in next(csv.reader([line], delimiter=delimiter))]


def name_of(cell: str) -> str:
    """A column's name without the bits in brackets."""
    return re.sub(r"\s*\[\d+(:|\.\.)?\d*\]$", "", cell)


class Columns:
    """The columns that are read, found by the names of some line of the head."""

    def __init__(self, wanted: Wanted):
        self.wanted = wanted
        self.names: list[str] = []
        used = [*wanted.data, *wanted.flag, *wanted.invalid, wanted.valid, wanted.time]
        self.sought = [it for it in used if it is not None and not it.isdigit()]

    def is_head(self, cells: list[str]) -> bool:
        """Whether these cells have all the names that are sought."""
        names = [name_of(it) for it in cells]
        return all(it in names or it in cells for it in self.sought)

    def place(self, name: str) -> int:
        if name.isdigit():
            return int(name) - 1
        found = [at for at, it in enumerate(self.names) if name in (it, name_of(it))]
        if len(found) != 1:
            raise Refused(f"{len(found) or 'no'} columns have the name {name}" if found
                          else f"no column has the name {name}")
        return found[0]

    def places(self, names: list[str]) -> list[int]:
        return [self.place(it) for it in names]


class Reader:
    """Samples of a table, one a line."""

    def __init__(self, lines: Iterable[str], wanted: Wanted):
        self.rows, self.wanted = rows_of(lines), wanted
        self.columns = Columns(wanted)
        self.pattern = re.compile(NUMBER[wanted.radix][0], re.IGNORECASE)
        self.base = NUMBER[wanted.radix][1]
        self.first: tuple[int, list[str]] | None = None
        self.layout: Layout | None = None
        self.unit = "samples" if wanted.time is None else f"column {wanted.time}"
        self._read_head()

    def _read_head(self) -> None:
        """Reads up to the first line of data."""
        is_named, sought = not self.columns.sought, self.columns.sought
        for number, cells in self.rows:
            if not is_named:
                if self.columns.is_head(cells):
                    is_named, self.columns.names = True, cells
                elif number > HEAD_LINES:
                    break
            elif self._is_data(number, cells):
                self.first = (number, cells)
                break
            elif number > HEAD_LINES:
                raise Refused("this line has no number in the columns of the data", number)
        if not is_named:
            raise Refused(f"no line of the head has the names {', '.join(sought)}")
        self._find()

    def _is_data(self, number: int, cells: list[str]) -> bool:
        if self.wanted.plain and len(cells) not in (2, 3):
            raise Refused(f"it has {len(cells)} columns; name them, as with --data 4 --flag 5", number)
        if self.wanted.head is not None:
            return number > self.wanted.head
        at = self.columns.places(self.wanted.data)
        return all(it < len(cells) and self.pattern.fullmatch(cells[it]) for it in at)

    def _find(self) -> None:
        columns, wanted = self.columns, self.wanted
        self.data = columns.places(wanted.data)
        self.flag, self.invalid = columns.places(wanted.flag), columns.places(wanted.invalid)
        if wanted.plain and self.first and len(self.first[1]) == 3:
            self.invalid = [2]
        self.valid = None if wanted.valid is None else columns.place(wanted.valid)
        self.time = None if wanted.time is None else columns.place(wanted.time)
        named = [it for it in columns.names if "valid" in it.lower() and "invalid" not in it.lower()]
        if named and self.valid is None:
            note(f"a column {named[0]} is there, and no --valid: each line counts")

    def samples(self) -> Iterator[Sample]:
        sample = 0
        for number, cells in self._rows():
            if max([*self.data, *self.flag, *self.invalid, self.valid or 0, self.time or 0]) \
                    >= len(cells):
                raise Refused(f"it has {len(cells)} columns", number)
            if self.valid is None or self._number(cells, self.valid, number) != 0:
                time = sample if self.time is None else cells[self.time].replace(" ", "")
                yield Sample(time, self._words(cells, number))
            sample += 1

    def _rows(self) -> Iterator[tuple[int, list[str]]]:
        if self.first is not None:
            yield self.first
            yield from self.rows

    def _digits(self, cells: list[str], at: int, number: int) -> str:
        found = self.pattern.fullmatch(cells[at])
        if not found:
            raise Refused(f"column {at + 1}, '{cells[at]}', is no number ({self.wanted.radix})", number)
        return found[1]

    def _number(self, cells: list[str], at: int, number: int) -> int:
        return int(self._digits(cells, at, number), self.base)

    def _words(self, cells: list[str], number: int) -> list[str]:
        layout = self.layout = self.layout or Layout(self._count(cells, number), self.wanted.low_first)
        width = 8 * layout.count // len(self.data)
        values = [self._number(cells, at, number) for at in self.data]
        if self.wanted.packed:
            if values[0] >> width + layout.count:
                raise Refused(f"'{cells[self.data[0]]}' has more than {width + layout.count} bits",
                              number)
            return layout.words(values[0] & (1 << width) - 1, values[0] >> width, 0)
        for at, value in zip(self.data, values):
            if value >> width:
                raise Refused(f"column {at + 1} has another number of bytes", number)
        return layout.words(joined(values, width), self._flags(self.flag, cells, number),
                            self._flags(self.invalid, cells, number))

    def _count(self, cells: list[str], number: int) -> int:
        """How many bytes a clock has: as --bytes says, or as the digits of the first line show."""
        if self.wanted.bytes is not None:
            return self.wanted.bytes
        if self.wanted.packed or self.base == 10:
            raise Refused("say with --bytes how many bytes a clock has")
        digits = sum(len(self._digits(cells, at, number)) for at in self.data)
        digits_a_byte = 2 if self.base == 16 else 8
        if digits % digits_a_byte:
            raise Refused("the data has no whole number of bytes", number)
        return digits // digits_a_byte

    def _flags(self, places: list[int], cells: list[str], number: int) -> int:
        """The flags of all bytes. A column has one binary digit for each of its bytes, or the same
        number in the radix of the table."""
        if not places:
            return 0
        each = self.layout.count // len(places)
        return joined([self._flag(cells, at, each, number) for at in places], each)

    def _flag(self, cells: list[str], at: int, each: int, number: int) -> int:
        value = flags_of(self._digits(cells, at, number), each, self.base)
        if value is None:
            raise Refused(f"column {at + 1} has more flags than {each} bytes", number)
        return value
