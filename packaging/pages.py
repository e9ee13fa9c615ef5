"""Reads the pages: their tables, by how the head of each begins, and the releases of the changelog."""
import re
from pathlib import Path

TOP = Path(__file__).resolve().parent.parent


# How each program is called; of rio the page has its commands.
SYNOPSES = {
    "rio_capture": (
        "rio_capture vcd --data S --flag S [--invalid S] [--valid S] [--clock S] [--edge WORD] [--places FILE] [FILE]",
        "rio_capture columns [--data C] [--flag C] [--invalid C] [--valid C] [--time C] [--bytes N] [--head N] [FILE]",
        "rio_capture monitor --data N --flag N [--invalid N] [--valid N] [--time N] [--radix WORD] [FILE]",
        "rio_capture dump [--first WORD] [FILE]",
        "rio_capture names [--time] [--places FILE] [FILE]",
        "rio_capture decode [FILE]",
        "rio_capture times [--page | --ladder TRACE] PLACES [FILE]",
        "rio_capture pair [--set-up FILE] [--lines FILE] PORT PORT CHARS PLACES CHARS PLACES",
        "rio_capture FORM --help",
    ),
    "rio_conform": ("rio_conform [--strict] BUFFERS NAME LINE ..",),
    "rio_follow": ("rio_follow [tell] [--report tap]", "rio_follow reactions"),
    "rio_lane": tuple(f"rio_lane {task} [COMMAS]" for task in ("groups", "chars", "bits", "sent", "got"))
    + tuple(f"rio_lane --lanes 4 {task} [COMMAS]" for task in ("groups", "chars")),
    "rio_port": ("rio_port [--log A B] [BUFFERS] [--take] [--timeout CLOCKS]",),
    "rio_live": ("rio_live",),
    "rio_view": (
        "rio_view words [--flow]",
        "rio_view counts",
        "rio_view ladder [--from N] [--to N]",
        "rio_view wave",
        "rio_view save",
        "rio_view packets",
        "rio_view page",
        "rio_view map [--tables] [--dot]",
        "rio_view coverage [--link PORT | --port PORT]",
        "rio_view VIEW [--lines N-M] [--link PORT | --port PORT]",
        "rio_view --help",
        "rio_view --version",
    ),
}


class Missing(Exception):
    """A page does not have what is taken from it."""


def lines_of(page):
    file = TOP / page
    if not file.exists():
        raise Missing(f"there is no {page}")
    return file.read_text(encoding="utf-8").splitlines()


def cells_of(line):
    cells = re.split(r"(?<!\\)\|", line.strip())[1:-1]
    return [cell.strip().replace("\\|", "|") for cell in cells]


def tables_of(lines):
    """Each table: the place of its first line, and its rows, of which the first is the head."""
    at = 0
    while at < len(lines):
        if lines[at].startswith("|"):
            end = next((n for n in range(at, len(lines)) if lines[n][:1] != "|"), len(lines))
            yield at, [cells_of(line) for line in lines[at:end] if not line.startswith("|--")]
            at = end
        at += 1


def table(page, *head):
    """The lines of the page, and the one table in it whose head begins so: its place and rows."""
    lines = lines_of(page)
    found = [(at, rows) for at, rows in tables_of(lines) if rows[0][: len(head)] == list(head)]
    if len(found) != 1:
        raise Missing(f"{page} has {len(found)} tables whose head begins with {' | '.join(head)}")
    return lines, *found[0]


def section(page, *head):
    """The lines of the section that has this table, without its heading."""
    lines, at, _ = table(page, *head)
    begin = max((n for n in range(at) if re.match(r"##? ", lines[n])), default=-1) + 1
    ends = (n for n in range(at, len(lines)) if re.match(r"##? ", lines[n]))
    return lines[begin : next(ends, len(lines))]


def first_console(page):
    """The lines of the first block of commands on a page."""
    lines = lines_of(page)
    if "```console" not in lines:
        raise Missing(f"{page} has no block of commands")
    begin = lines.index("```console") + 1
    return lines[begin : lines.index("```", begin)]


def commands():
    """The commands of rio: the words of each after the program's name."""
    _, _, rows = table("docs/running.md", "words")
    found = [re.findall(r"`rio ([^`]+)`", row[0]) for row in rows[1:]]
    if not all(found):
        raise Missing("docs/running.md has a row of words that does not begin with a command of rio")
    return [words for row in found for words in row]


def declarations():
    """The functions of the library for C, as its header declares them: the name of each, and its whole declaration."""
    text = (TOP / "share/library/kigvarp.h").read_text(encoding="utf-8")
    return {it[1]: " ".join(it[0].split()) for it in re.finditer(r"^uint32_t (\w+)\([^;]*\);", text, re.M)}


def synopsis(program):
    """The ways in which a program is called."""
    if program == "rio":
        return tuple(f"rio {words}" for words in commands())
    if program == "kigvarp":
        return ("#include <kigvarp.h>", *declarations().values())
    return SYNOPSES[program]


def options(program):
    """The options that the page of a program has in a table, which stand for PART."""
    if not any("PART" in call for call in synopsis(program)):
        return set()
    _, _, rows = table("docs/pictures.md", "option")
    return {word for row in rows[1:] for word in re.findall(r"--[a-z]+", row[0])}


def words_of(program):
    """What may follow the program's name, and what may follow the word after it."""
    calls = [re.findall(r"[\w-]+", call)[1:] for call in synopsis(program)]
    first = {words[0] for words in calls if words and re.match("[a-z]|--", words[0])}
    further = {word for words in calls for word in words[1:] if word.startswith("--")}
    return sorted(first), sorted(further | options(program))


def releases():
    """The releases, the newest first: the version, the date, and the lines of what came. Those of
    what is not released yet have no version and no date."""
    found = []
    for line in lines_of("CHANGELOG.md"):
        if line.startswith("## "):
            version, date = re.search(r"\d+\.\d+\.\d+", line), re.search(r"\d{4}-\d\d-\d\d", line)
            if (version is None) != (date is None):
                raise Missing(f"CHANGELOG.md: '{line}' lacks a version or a date")
            found.append((version and version[0], date and date[0], []))
        elif found:
            found[-1][2].append(line)
    if not found:
        raise Missing("CHANGELOG.md has no head of a release")
    return found
