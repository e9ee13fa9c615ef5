"""Times of a capture beside what was read in it."""
import itertools
import json
import re
from collections.abc import Iterable, Iterator

from .refusal import Refused

# A line of decode or of a view of words begins with its place or number.
NUMBERED = re.compile(r" *(\d+)\b")
# An arrow of a ladder: what it says ends with its characters.
ARROW = re.compile(r'<g class="arrow [^"]*"><title>.*?: ([^:<]*)</title><line x1="\d+" y1="(\d+)"')


def read_places(lines: Iterable[str]) -> tuple[str, Iterator[tuple[int, str]]]:
    """What the times of a file of places count, and its places with their times."""
    numbered = enumerate(lines, 1)
    _, head = next(numbered, (1, ""))
    if not head.startswith("# ") or ", in " not in head:
        raise Refused("this is no file of places: its first line begins with '# PLACE TIME, in'", 1)
    return head.rstrip("\n").split(", in ", 1)[1], _pairs(numbered)


def _pairs(numbered: Iterator[tuple[int, str]]) -> Iterator[tuple[int, str]]:
    for number, line in numbered:
        place, _, time = line.rstrip("\n").partition(" ")
        if not place.isdigit() or not time:
            raise Refused("no place and time", number)
        yield int(place), time


def beside(lines: Iterable[str], places: Iterable[str]) -> Iterator[str]:
    """Each line with the time of the place, or of the line of a trace, that it begins with. A line
    that begins with none, or with one that has no time, has none. Neither file is kept: both go on
    in the order of places."""
    places = iter(places)
    head = next(places, "")
    unit, pairs = read_places(itertools.chain([head], places))
    at, time = next(pairs, (None, ""))
    last = -1
    for number, line in enumerate(lines, 1):
        found = NUMBERED.match(line)
        if not found:
            yield line
            continue
        place = int(found[1])
        if place < last:
            raise Refused(f"place {place} comes after place {last}", number)
        last = place
        while at is not None and at < place:
            at, time = next(pairs, (None, ""))
        if at is None and not head.startswith("# LINE"):
            raise Refused(f"the file of places ends before place {place}", number)
        yield f"{time} {unit}: {line}" if at == place else line


def in_page(page: str, lines: Iterable[str]) -> str:
    """A page of a trace with the times of its lines."""
    unit, pairs = read_places(lines)
    where = page.find("<script type='application/json' id='fabric'>")
    if where < 0:
        raise Refused("this is no page that rio_view wrote")
    times = json.dumps({"unit": unit, "lines": dict(pairs)}, separators=(",", ":"))
    return (f"{page[:where]}<script type='application/json' id='times'>\n"
            f"{times.replace('<', chr(92) + 'u003c')}\n</script>\n{page[where:]}")


def in_ladder(ladder: str, trace: Iterable[str], lines: Iterable[str]) -> str:
    """A ladder with the time of each arrow at its left. The arrows come in the order of the lines
    that sent them."""
    unit, pairs = read_places(lines)
    times = dict(pairs)
    sent = [(number, line.rstrip("\n")) for number, line in enumerate(trace, 1)
            if line.startswith("sent ")]
    at, out, end = 0, [], 0
    for arrow in ARROW.finditer(ladder):
        here = next((k for k in range(at, len(sent)) if f" {arrow[1]} " in f"{sent[k][1]} "), None)
        if here is None:
            raise Refused(f"no line of the trace sent {arrow[1]}")
        at = here
        label = (f'<text x="2" y="{arrow[2]}">{times[sent[at][0]]} {unit}</text>'
                 if sent[at][0] in times else "")
        out += [ladder[end:arrow.start()], label]
        end = arrow.start()
    return "".join([*out, ladder[end:]])
