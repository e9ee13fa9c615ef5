"""How the bytes and flags of one clock become characters."""
from dataclasses import dataclass
from typing import NamedTuple

from .characters import DATA, INVALID, SPECIAL
from .refusal import Refused


KINDS = (DATA, SPECIAL)


class Sample(NamedTuple):
    """What one clock brought: the words of its characters, and when."""

    time: int | str
    words: list[str]


@dataclass(frozen=True)
class Layout:
    """So many bytes a clock, of which the low one came first, or the high one."""

    count: int
    low_first: bool

    def __post_init__(self) -> None:
        if self.count not in (1, 2, 4, 8):
            raise Refused(f"a clock has 1, 2, 4 or 8 bytes, and not {self.count}")

    def words(self, data: int, special: int, invalid: int) -> list[str]:
        """The characters of a clock, in the order in which they came. Bit i of the flags belongs
        to byte i, counted from the low one."""
        places = range(self.count) if self.low_first else range(self.count - 1, -1, -1)
        if invalid:
            return [INVALID if invalid >> at & 1 else KINDS[special >> at & 1][data >> 8 * at & 255]
                    for at in places]
        return [KINDS[special >> at & 1][data >> 8 * at & 255] for at in places]


def joined(values: list[int], width: int) -> int:
    """Values of lanes as one, the first lane lowest."""
    if len(values) == 1:
        return values[0]
    return sum(value << width * lane for lane, value in enumerate(values))


def flags_of(digits: str, count: int, base: int) -> int | None:
    """Flags of so many bytes: one binary digit for each, or the same number in the base of the
    capture. None if there are more flags than bytes."""
    if len(digits) == count and set(digits) <= {"0", "1"}:
        return int(digits, 2)
    value = int(digits, base)
    return None if value >> count else value
