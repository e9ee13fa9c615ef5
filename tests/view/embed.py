#!/usr/bin/env python3
"""Compares share/page.html with what rio_view has of it, in src/page_head_1.rt, page_script_1.rt, page_rest_1.rt and as
many more as it takes, since no file has more than 400 lines; with --write, writes these files from it. A difference is
printed, and the status is 1.

usage: tests/view/embed.py [--write]
"""
import sys
from pathlib import Path

TOP = Path(__file__).resolve().parent.parent.parent
SOURCES = TOP / "crates/rio_view/src"
HOLE = "THE FABRIC AND THE RECORDS\n"
NAMES = ("head", "script", "rest")
WHAT = ("up to the fabric", "the script that reads records", "the script that shows them")
MOST = 390


def parts():
    """The text before the hole, up to the end of the first script, and the rest."""
    head, behind = (TOP / "share/page.html").read_text("ascii").split(HOLE)
    end = behind.index("</script>\n", behind.index("'use strict'")) + len("</script>\n")
    return head, behind[:end], behind[end:]


def cut(lines):
    """Lines in pieces, each but the last up to an empty line."""
    while len(lines) > MOST:
        end = max(at for at in range(MOST) if lines[at] == "\n")
        yield lines[:end]
        lines = lines[end:]
    yield lines


def pieces():
    """The name of each piece, what it is of, and its text."""
    for name, what, text in zip(NAMES, WHAT, parts()):
        for number, lines in enumerate(cut(text.splitlines(keepends=True)), 1):
            yield f"{name}_{number}", what, "".join(lines)


def source(name, what, text):
    """The file of a piece."""
    spelled = text.replace("\\", "\\\\").replace('"', '\\"')
    return (f"//! The page of a trace: {what}. Made from `share/page.html` by\n//! `tests/view/embed.py --write`.\n\n"
            f'pub(crate) const {name.upper()}: &[u8] = b"{spelled}";\n')


def faults(written):
    """What is wrong with the files, and with the page that is put together of them."""
    names = [name for name, _, _ in written]
    for name, what, text in written:
        file = SOURCES / f"page_{name}.rt"
        if not file.exists() or file.read_text() != source(name, what, text):
            yield f"{file.name} is not of share/page.html: run tests/view/embed.py --write"
    main, page = ((SOURCES / file).read_text() for file in ("main.rt", "page.rt"))
    yield from (f"main.rt has no mod page_{name}" for name in names if f"mod page_{name};" not in main)
    put = [line.strip()[8:-2] for line in page.splitlines() if line.strip().startswith("out.put(") and line.isascii()]
    if [it for it in put if it.lower() in names] != [name.upper() for name in names]:
        yield f"page.rt does not put {', '.join(names)}"


def main():
    written = list(pieces())
    if "--write" in sys.argv[1:]:
        for name, what, text in written:
            (SOURCES / f"page_{name}.rt").write_text(source(name, what, text))
    told = list(faults(written))
    print(*told, sep="\n", end="\n" if told else "")
    return len(told) > 0


sys.exit(main())
