"""What is written of a capture: its characters, and a second file with the place and time of each."""
import sys
from collections.abc import Iterable
from typing import TextIO

from .layout import Sample
from .refusal import Refused, note

# So many characters may come before the first special one until that is said.
LOOKED_AT = 1 << 16
# So many samples are written at once.
AT_ONCE = 4096


def write(samples: Iterable[Sample], unit: str, characters: TextIO, places: TextIO | None) -> int:
    """Writes all samples, a line each, and answers how many characters there were. The lines of
    the second file are 'PLACE TIME'; its first line says what the times count."""
    if places:
        places.write(f"# PLACE TIME, in {unit}\n")
    place, waiting, is_told = 0, [], False
    for sample in samples:
        waiting.append(sample)
        if not is_told:
            is_told = _has_flags(waiting)
            if not is_told and len(waiting) < LOOKED_AT:
                continue
            is_told = True
        if len(waiting) >= AT_ONCE:
            place = _put(waiting, place, characters, places)
    if not is_told and waiting and not _has_flags(waiting):
        note("no character is special: is the right column or signal named for the flags?")
    return _put(waiting, place, characters, places)


def _has_flags(samples: list[Sample]) -> bool:
    """Whether the last sample has a special character; of too many without one it is said."""
    if any(word[0] == "k" for word in samples[-1].words):
        return True
    if len(samples) == LOOKED_AT:
        note(f"none of the first {LOOKED_AT} clocks has a special character: is the right column or "
             "signal named for the flags?")
    return False


def _put(samples: list[Sample], place: int, characters: TextIO, places: TextIO | None) -> int:
    characters.write("".join([f"{' '.join(sample.words)}\n" for sample in samples]))
    if places:
        lines = []
        for sample in samples:
            for _ in sample.words:
                lines.append(f"{place} {sample.time}\n")
                place += 1
        places.write("".join(lines))
    else:
        place += sum(len(sample.words) for sample in samples)
    samples.clear()
    return place


def open_for_writing(name: str | None) -> TextIO | None:
    """The file of that name, made anew; standard output if the name is a hyphen."""
    if name is None or name == "-":
        return None if name is None else sys.stdout
    try:
        return open(name, "w", encoding="ascii")
    except OSError as why:
        raise Refused(f"{name} cannot be written: {why.strerror}") from None
