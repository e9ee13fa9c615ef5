"""Captures that are longer than one input of rio decode: read in pieces, places going on."""
import subprocess
from collections.abc import Iterable, Iterator

from .characters import IDLES
from .refusal import Refused

# So many characters are one input: four bytes each, and a limit of 4,194,304 bytes.
AT_ONCE = 1_000_000

# stype1 of symbols after which no packet is in progress, and of the one that begins one
ENDS, BEGINS = {"1", "2", "3", "4"}, "0"


def decoded(lines: Iterable[str], rio: str, at_once: int = AT_ONCE) -> Iterator[str]:
    """What rio decode writes of all these characters, piece after piece."""
    words, before = [], 0
    for line in lines:
        words += line.split()
        while len(words) > at_once:
            piece = words[:at_once]
            told = _decode(piece, rio, before)
            cut = starts_anew(piece, told)
            yield from (f"{before + place} {rest}\n" for place, rest in told[:-1] if place < cut)
            before, words = before + cut, words[cut:]
    told = _decode(words, rio, before)
    for place, rest in told:
        yield f"{before + place} {rest}\n" if place is not None else f"{rest}\n"


def _decode(words: list[str], rio: str, before: int) -> list[tuple[int | None, str]]:
    """The lines of one piece, each as its place and the rest; the last one has no place."""
    try:
        done = subprocess.run([rio, "decode"], input="\n".join(words), text=True,
                              capture_output=True, check=False)
    except OSError as why:
        raise Refused(f"{rio} does not run: {why.strerror}") from None
    lines = done.stdout.splitlines()
    if done.returncode == 3 and lines:
        at = int(lines[-1].split()[1]) - 1
        raise Refused(f"character {before + at}, '{words[at]}', is no character")
    if done.returncode != 0:
        raise Refused(f"{rio} decode ended with {done.returncode}: {done.stderr.strip()}")
    parted = [line.partition(" ") for line in lines]
    return [(int(place), rest) if place.isdigit() else (None, line)
            for (place, _, rest), line in zip(parted, lines)]


def starts_anew(words: list[str], told: list[tuple[int | None, str]]) -> int:
    """The last place of a piece at which the reading starts anew: after an idle, or after a symbol
    with no packet in progress. The piece ends before it, and the next begins there."""
    idle = next((at + 1 for at in range(len(words) - 1, -1, -1) if words[at] in IDLES), 0)
    symbol, is_within = 0, True
    for place, rest in told[:-1]:
        kind = rest.split()
        if kind[0] == "symbol":
            is_within = kind[4] == BEGINS or is_within and kind[4] not in ENDS
            symbol = symbol if is_within else place + 1
        elif kind[0] == "bad":
            is_within = False
    if max(idle, symbol) == 0:
        raise Refused(f"in {len(words)} characters there is no idle and no end of a packet, at which "
                      "the capture could be cut")
    return max(idle, symbol)
