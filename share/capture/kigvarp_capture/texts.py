"""Captures that are text: hex dumps, characters by name, and what $monitor prints."""
import re
from collections.abc import Iterable, Iterator

from .characters import DATA, INVALID, SPECIAL, word_of
from .columns import NUMBER
from .layout import Layout, Sample, flags_of
from .refusal import Refused, note

DUMP_LINE = re.compile(r"([0-9a-f]+):?((?: [0-9a-f]+)*)", re.IGNORECASE)


def dump_samples(lines: Iterable[str]) -> Iterator[Sample]:
    """A hex dump of a capture memory: after an address words of four digits, the byte of a
    character in the lower two, and above it 01 for a special one, 02 or 03 for an invalid one."""
    sample = 0
    for number, line in enumerate(lines, 1):
        line = re.sub(r"  .*", "", line.rstrip("\r\n"))
        if not line:
            continue
        found = DUMP_LINE.fullmatch(line)
        if not found:
            raise Refused("not an address and words", number)
        for text in found[2].split():
            yield Sample(sample, [_dumped(text, number)])
            sample += 1


def _dumped(text: str, number: int) -> str:
    if not re.fullmatch(r"0[0-3][0-9a-f]{2}", text, re.IGNORECASE):
        raise Refused(f"'{text}' is no character: 00, 01, 02 or 03, and a byte", number)
    kind, byte = int(text[1]), int(text[2:], 16)
    return INVALID if kind > 1 else (SPECIAL if kind == 1 else DATA)[byte]


def named_samples(lines: Iterable[str], time: bool) -> Iterator[Sample]:
    """Characters by name, as K28.3 D0.4, parted by spaces or commas. With a time each line begins
    with it."""
    sample = 0
    for number, line in enumerate(lines, 1):
        words = re.split(r"[\s,;]+", line.strip())
        if words == [""] or words[0].startswith("#"):
            continue
        when = words.pop(0) if time else sample
        yield Sample(when, [word_of(it, number) for it in words])
        sample += len(words)


class Monitor:
    """Lines of $monitor or $display with NAME=VALUE in them, of which other lines have none."""

    def __init__(self, lines: Iterable[str], names: dict[str, str | None], radix: str,
                 low_first: bool):
        self.lines, self.names, self.base = lines, names, NUMBER[radix][1]
        digits = {"hex": "[0-9a-f]+", "bin": "[01]+", "dec": "[0-9]+"}[radix]
        self.values = {
            kind: re.compile(rf"(?<![\w.]){re.escape(name)}\s*[=:]\s*"
                             + (r"([\d.]+)" if kind == "time" else rf"(?:0x)?({digits})(?!\w)"),
                             re.IGNORECASE)
            for kind, name in names.items() if name is not None}
        self.low_first, self.layout, self.passed = low_first, None, 0
        self.unit = "lines" if names.get("time") is None else f"the units of {names['time']}"

    def samples(self) -> Iterator[Sample]:
        sample = 0
        for number, line in enumerate(self.lines, 1):
            found = {kind: it.search(line) for kind, it in self.values.items()}
            if not any(found.values()):
                self.passed += bool(line.strip())
                continue
            lacks = [self.names[kind] for kind, it in found.items() if it is None]
            if lacks:
                raise Refused(f"it has no value of {', '.join(lacks)}", number)
            if "valid" not in found or int(found["valid"][1], self.base) != 0:
                yield Sample(found["time"][1] if "time" in found else sample,
                             self._words({kind: it[1] for kind, it in found.items()}, number))
            sample += 1
        if self.passed:
            note(f"{self.passed} lines have none of the names and were passed over")

    def _words(self, found: dict[str, str], number: int) -> list[str]:
        if self.layout is None:
            each = {16: 2, 2: 8}.get(self.base)
            if each is None or len(found["data"]) % each:
                raise Refused("the data has no whole number of bytes", number)
            self.layout = Layout(len(found["data"]) // each, self.low_first)
        data = int(found["data"], self.base)
        if data >> 8 * self.layout.count:
            raise Refused(f"{self.names['data']} has another number of bytes", number)
        return self.layout.words(data, self._flags(found, "flag", number),
                                 self._flags(found, "invalid", number))

    def _flags(self, found: dict[str, str], kind: str, number: int) -> int:
        value = flags_of(found.get(kind, "0"), self.layout.count, self.base)
        if value is None:
            raise Refused(f"{self.names[kind]} has more flags than {self.layout.count} bytes", number)
        return value
