"""rio check and rio_follow over the same input: output, status and words."""
import re
import subprocess
from pathlib import Path

TOP = Path(__file__).resolve().parent.parent.parent
SETS_UP = re.search(r"'(\^.*?)'", (TOP / "examples/traced.sh").read_text())[1].encode()


def answered(program, text, *words):
    """What a program answers to an input: its status, what it wrote, and what it said."""
    done = subprocess.run([program, *words], input=text, capture_output=True, timeout=120, check=False)
    return done.returncode, done.stdout, done.stderr


def answered_by_rio(rio, text):
    """What rio check answers, as rio_follow says it: rio check says in a second line how to see the place."""
    status, wrote, said = answered(rio, text, "check")
    return status, wrote, re.sub(rb"^rio:", b"rio_follow:", said.partition(b"\n")[0] + b"\n") if said else b""


def differ(program, rio, text):
    """What both answer, if they differ."""
    one, other = answered(program, text), answered_by_rio(rio, text)
    return None if one == other else f"rio_follow {one}, rio check {other}"


def inputs():
    """The traces of the examples, each behind its set-up lines and the line between."""
    for script in sorted(TOP.glob("examples/*.script")):
        set_up = b"".join(line + b"\n" for line in script.read_bytes().split(b"\n") if re.match(SETS_UP, line))
        yield script.stem, set_up + b"---\n" + script.with_suffix(".trace").read_bytes()


def changed(lines, chance):
    """Lines with one of them gone, twice there, swapped with the next, put elsewhere, or with another character in it."""
    lines, at = list(lines), chance.randrange(len(lines))
    kind = chance.randrange(5)
    if kind == 0:
        del lines[at]
    elif kind == 1:
        lines.insert(at, lines[at])
    elif kind == 2:
        lines[at : at + 2] = reversed(lines[at : at + 2])
    elif kind == 3:
        lines.insert(chance.randrange(len(lines)), lines.pop(at))
    elif lines[at]:
        place = chance.randrange(len(lines[at]))
        lines[at] = lines[at][:place] + bytes([chance.choice(b"0123456789abcdef .")]) + lines[at][place + 1 :]
    return lines


def drawn(count, chance):
    """So many inputs of the examples, each with one to three changes."""
    texts = list(inputs())
    for i in range(count):
        name, text = chance.choice(texts)
        lines = text.split(b"\n")
        for _ in range(chance.randrange(1, 4)):
            lines = changed(lines, chance)
        yield f"{name}, changed {i}", b"\n".join(lines)
