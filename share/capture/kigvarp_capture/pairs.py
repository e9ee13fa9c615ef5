"""Two captures, one of each direction of a link, as one trace."""
import heapq
from collections.abc import Iterable, Iterator
from dataclasses import dataclass, field
from decimal import Decimal, InvalidOperation

from .characters import IDLES
from .refusal import Refused
from .times import read_places

DELIMITERS = {"k7c", "k1c"}
# stype1 of start-of-packet, and of the symbols after which no packet is in progress
START, ENDS = 0, {1, 2, 3, 4}
LONGEST = 4096


@dataclass(order=True)
class Burst:
    """Characters that one port sent one after another, and when the first of them came."""

    time: Decimal
    said: str = field(compare=False)
    port: str = field(compare=False)
    words: list[str] = field(compare=False)


@dataclass
class Splitter:
    """Where a burst ends: at an idle, and after a symbol with no packet in progress."""

    within: bool = False
    symbol: list[str] | None = None

    def ends_with(self, word: str) -> bool:
        if word in DELIMITERS:
            self.symbol = []
        elif self.symbol is not None:
            self.symbol.append(word)
            if len(self.symbol) == 3:
                kind = int(self.symbol[1][1:], 16) & 7 if self.symbol[1][0] == "d" else 7
                self.within = kind == START or self.within and kind not in ENDS
                self.symbol = None
                return not self.within
        return False


def bursts(port: str, characters: Iterable[str],
           pairs: Iterator[tuple[int, str]]) -> Iterator[Burst]:
    """The bursts of one direction. Idles are in none."""
    found, splitter = None, Splitter()
    for word in (word for line in characters for word in line.split()):
        _, said = next(pairs, (None, None))
        if said is None:
            raise Refused("there are more characters than places")
        if word in IDLES:
            if found:
                yield found
            found, splitter = None, Splitter()
            continue
        found = found or Burst(_time(said), said, port, [])
        found.words.append(word)
        if splitter.ends_with(word) or len(found.words) == LONGEST:
            yield found
            found = None
    if found:
        yield found


def _time(said: str) -> Decimal:
    try:
        return Decimal(said.rstrip("abcdefghijklmnopqrstuvwxyz"))
    except InvalidOperation:
        raise Refused(f"the time '{said}' is no number, so that two captures have no order") from None


def trace(directions: list[tuple[str, Iterable[str], Iterable[str]]],
          set_up: Iterable[str]) -> Iterator[tuple[str, str]]:
    """The lines of a trace, each with its time or with none. A direction is the port that sends,
    its characters and their places."""
    read = [(port, characters, read_places(places)) for port, characters, places in directions]
    units = {unit for _, _, (unit, _) in read}
    if len(units) > 1:
        raise Refused(f"the two captures count times in {' and in '.join(sorted(units))}")
    for line in set_up:
        yield line.rstrip("\n"), ""
    yield "---", ""
    sent = [bursts(port, characters, pairs) for port, characters, (_, pairs) in read]
    for burst in heapq.merge(*sent):
        yield f"sent {burst.port} {' '.join(burst.words)}", burst.said
    yield "end", ""


def plain_set_up(ports: list[str]) -> list[str]:
    """Two endpoints and the link between these ports, if nothing else is said."""
    nodes = [port.partition(".")[0] for port in ports]
    if any(not port.endswith(".0") for port in ports) or nodes[0] == nodes[1]:
        raise Refused("two ports are wanted, as A.0 and B.0; for others give set-up lines")
    return [f"endpoint {nodes[0]} 1", f"endpoint {nodes[1]} 2", f"link {ports[0]} {ports[1]}"]
