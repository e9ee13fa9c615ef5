"""What characters say, and which traces are lawful, is by the module what the programs write: over the stored cases of rio
decode and rio check, over the examples, and, if there is a built rio, over drawn ones.

usage: reads.py SEED [RIO]
"""
import random
import re
import subprocess
import sys
from pathlib import Path

from kigvarp import Bad, Broken, Checker, NotAsked, Packet, Refused, Symbol, Unlawful, chars_of, decode, text_of

TOP = Path(__file__).resolve().parents[2]
RIO = sys.argv[2] if len(sys.argv) > 2 else None
SETS_UP = re.search(r"'(\^.*?)'", (TOP / "examples/traced.sh").read_text())[1]
chance = random.Random(sys.argv[1])


def equal(what, found, wanted):
    if found != wanted:
        sys.exit(f"{what}: {found!r}, wanted {wanted!r}")


def line_of(event):
    """The line of an event, as rio decode has it."""
    what = event.what
    if isinstance(what, Symbol):
        return f"{event.place} symbol {' '.join(map(str, what))}"
    return f"{event.place} bad {what.cause}" if isinstance(what, Bad) else f"{event.place} packet {what.ack} {what.data.hex()}"


def decoded(text):
    reading = decode(chars_of(text.replace("\n", " ")))
    return "".join(f"{line_of(it)}\n" for it in reading) + ("end cut\n" if reading.cut else "end\n")


def checked(text):
    """What the module says of set-up lines, a line --- and a trace, as rio check says it."""
    lines = text.removesuffix("\n").split("\n")
    at = lines.index("---")
    try:
        with Checker(lines[:at]) as checker:
            return f"lawful {checker.check(lines[at + 1:])}\n"
    except Refused as hit:
        return f"refused {hit.line} {hit.reason}\n"
    except Unlawful as hit:
        return f"unlawful {at + 1 + hit.line} {hit.reason}\n"


def cases(folder, command):
    """The stored cases of a command: the name, the input and the output."""
    for file in sorted((TOP / "tests" / folder).glob("*.words")):
        given, wanted = file.with_suffix(".in").read_bytes(), file.with_suffix(".out")
        if file.read_text().split() == [command] and given.isascii() and wanted.exists():
            yield file.stem, given.decode(), wanted.read_text()


def examples():
    for script in sorted(TOP.glob("examples/*.script")):
        set_up = [line for line in script.read_text().splitlines() if re.match(SETS_UP, line)]
        yield set_up, script.with_suffix(".trace").read_text().splitlines()


def by_rio(command, text):
    return subprocess.run([RIO, command], input=text, capture_output=True, text=True, check=False).stdout


def stored():
    tried = 0
    for name, given, wanted in cases("decode", "decode"):
        if not wanted.startswith("refused"):
            equal(name, decoded(given), wanted)
            tried += 1
    for chars in sorted(TOP.glob("examples/*.chars")):
        equal(chars.stem, decoded(chars.read_text()), chars.with_suffix(".lines").read_text())
    for name, given, wanted in cases("check", "check"):
        if "---" in given.split("\n"):
            equal(name, checked(given), wanted)
            tried += 1
    for set_up, trace in examples():
        equal("an example", checked("\n".join([*set_up, "---", *trace]) + "\n").split()[0], "lawful")
    equal("many cases", tried > 30, True)


def harmed(lines):
    """Lines of which one is away, twice there, changed or at another place."""
    lines, at = list(lines), chance.randrange(len(lines))
    kind = chance.randrange(4)
    if kind == 0:
        return lines[:at] + lines[at + 1:]
    if kind == 1:
        return lines[:at] + lines[at:at + 1] + lines[at:]
    if kind == 2:
        words = lines[at].split(" ")
        words[chance.randrange(len(words))] = chance.choice(("A", "1", "k7c", "d00", "", "00"))
        return lines[:at] + [" ".join(words)] + lines[at + 1:]
    return lines[:at] + lines[at + 1:] + lines[at:at + 1]


def drawn_traces():
    for set_up, trace in examples():
        for _ in range(10):
            text = "\n".join([*set_up, "---", *harmed(trace)]) + "\n"
            told = checked(text)
            if RIO:
                equal("a harmed trace", told, by_rio("check", text))


def drawn_chars():
    traces = " ".join(" ".join(trace) for _, trace in examples()).split()
    words = [word for word in traces if re.fullmatch(r"[dk][0-9a-f]{2}|inv", word)]
    for _ in range(100):
        at, count = chance.randrange(len(words)), chance.randrange(400)
        chars = [chance.choice((word, word, word, "kbc", "inv", "d00"))
                 if chance.randrange(30) == 0 else word for word in words[at:at + count]]
        told = decoded(" ".join(chars))
        if RIO:
            equal("drawn characters", told, by_rio("decode", " ".join(chars) + "\n"))


def words():
    """A symbol and a packet are read back, and what is broken or out of range is said to be so."""
    for _ in range(300):
        symbol = Symbol(*(chance.randrange(most) for most in (8, 32, 32, 8, 8)))
        chars = symbol.chars()
        equal("symbol", Symbol.read(chars), symbol)
        equal("one event", [event.what for event in decode(chars)], [symbol])
        large = chance.randrange(2) == 1
        most = 0x10000 if large else 0x100
        fields = {"prio": chance.randrange(4), "ftype": chance.randrange(16), "source": chance.randrange(most),
                  "dest": chance.randrange(most), "ack": chance.randrange(32)}
        rest = chance.randbytes(2 * chance.randrange(134))
        data = Packet.write(rest, large=large, **fields)
        packet = Packet.read(data)
        equal("packet", {**packet._asdict(), "data": rest}, {**fields, "tt": int(large), "data": rest})
        equal("rest", packet.data[6 if large else 4:][:min(len(rest), 74)], rest[:74])
        place = chance.randrange(len(data))
        refused(Broken, Packet.read, data[:place] + bytes([data[place] ^ 1 << chance.randrange(2)]) + data[place + 1:])
        chars[chance.randrange(1, 4)] ^= 1
        refused(Broken, Symbol.read, chars)
    for wrong in ((8, 0, 0, 0, 0), (0, 32, 0, 0, 0), (0, 0, 32, 0, 0), (0, 0, 0, 8, 0), (0, 0, 0, 0, 8), (256, 0, 0, 0, 0)):
        refused(NotAsked, Symbol(*wrong).chars)
    refused(NotAsked, lambda: Packet.write(b"1", ftype=1, source=1, dest=2))
    refused(NotAsked, lambda: Packet.write(b"", ftype=1, source=1, dest=2, ack=32))
    refused(Broken, Symbol.read, [])
    equal("nothing", (list(decode([])), decode([]).cut), ([], False))


def refused(fault, call, *given):
    try:
        sys.exit(f"{given}: {call(*given)}")
    except fault:
        pass


def one_hit():
    """Behind a line that is hit no line is taken."""
    with Checker(["endpoint A 1", "endpoint B 2", "link A.0 B.0"]) as checker:
        checker.take("take A 000f0201cafe0001a9bb0000")
        refused(Unlawful, checker.take, "nonsense")
        for call in (lambda: checker.take("end"), checker.end):
            try:
                sys.exit(f"taken: {call()}")
            except Exception as fault:  # pylint: disable=broad-except
                equal("spent", type(fault).__name__, "Spent")


for case in (stored, drawn_traces, drawn_chars, words, one_hit):
    case()
