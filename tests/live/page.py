"""The sessions that docs/live.md shows: a block of lines, each with its answer behind it, four spaces in. Each answer is
what the page says, and each line of an answer that refuses has its reason and words.

usage: page.py PORT FABRIC    PORT: rio_port, FABRIC: rio_live. The status is 0 if all is as wanted.
"""
import pathlib
import re
import sys

from streams import equal
from two_ports import Port

PAGE = pathlib.Path(__file__).parents[2] / "docs" / "live.md"
PLACES = [PAGE, *sorted((PAGE.parents[1] / "examples" / "live").iterdir())]
IN = "    "


def sessions():
    """The lines of each block that has answers."""
    blocks = re.findall(r"```text\n(.*?)```", PAGE.read_text(), re.S)
    return [block.splitlines() for block in blocks if f"\n{IN}ok\n" in block]


def asked(lines):
    """Each line of a session, with the lines of its answer."""
    found = []
    for line in lines:
        if line.startswith(IN):
            found[-1][1].append(line[len(IN) :])
        else:
            found.append((line, []))
    return found


def played(port, fabric, lines):
    """The answers of a session are those of the page. Its first line may say how a port is started."""
    name, *words = lines[0].split()
    if name == "rio_port":
        lines = lines[2:]
    else:
        words = []
    program = Port(fabric if name == "endpoint" else port, *words)
    for line, answer in asked(lines):
        equal(line, program.ask(line) + ["ok"], answer)
    program.end()


def refusals():
    """Each answer that refuses, on the page and in the examples."""
    text = "".join(place.read_text() for place in PLACES)
    return re.findall(r"^ +(?:> )?(refused .*)$", text, re.M)


def main(port, fabric):
    shown = sessions()
    equal("there are sessions of both programs", len(shown) >= 2, True)
    for lines in shown:
        played(port, fabric, lines)
    told = refusals()
    equal("there are refusals", len(told) > 0, True)
    equal("each has words", [line for line in told if not re.fullmatch(r"refused \d+ [a-z].*", line)], [])


if __name__ == "__main__":
    main(*sys.argv[1:])
