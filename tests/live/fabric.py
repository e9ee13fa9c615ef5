"""A fabric line by line over pipes, with a time limit: each answer must come before the next line is written.

usage: fabric.py PROGRAM    PROGRAM: rio_live. The status is 0 if all is as wanted. The stored cases of `rio replay` say
what is wanted: their traces without `ok`, and their refusals. The packet is that of the worked rows, which the
standard's CRCs give.
"""
import pathlib
import sys

from streams import MOST_LINE, byte_by_byte, ended, equal, gone
from two_ports import Port

CASES = pathlib.Path(__file__).parents[1]
EXAMPLES = CASES.parent / "examples"
SETUP = ["endpoint A 1", "endpoint B 2", "link A.0 B.0"]
PACKET = "000f0201cafe0001a9bb0000"
SEND = "send A 0 15 2 cafe0001"
TAKE = ["> " + SEND, "take A " + PACKET]
# reasons of whole scripts alone: the events cost too much
COSTS = ["events_that_cost_too_much", "run_of_two_links_that_costs_too_much", "run_without_a_link_that_costs_too_much"]


def lines_of(path):
    """The lines of a script."""
    lines = path.read_bytes().split(b"\n")
    return lines[:-1] if lines[-1] == b"" else lines


def asked(fabric, line):
    """The lines of the answer of a line of bytes."""
    return fabric.ask(line.decode("latin-1"))


def whole_trace(program, script, wanted):
    """The answers of a script's lines, and what comes behind them, are its trace."""
    fabric = Port(program)
    trace = []
    for line in lines_of(script):
        trace += asked(fabric, line)
        if trace and trace[-1].startswith("undetected "):
            break
    fabric.process.stdin.close()
    trace += fabric.process.stdout.read().decode().splitlines()
    equal(script.stem, trace, wanted.read_text().splitlines())
    fabric.process.stdout.close()
    equal(script.stem, fabric.process.wait(), 0 if trace[-1] == "end" else 7)


def traces(program):
    count = 0
    for script in sorted(CASES.glob("*/*.in")):
        replays = script.with_suffix(".words").read_text() == "replay\n"
        if replays and script.with_suffix(".status").read_text().strip() in ("0", "7"):
            whole_trace(program, script, script.with_suffix(".out"))
            count += 1
    for script in sorted(EXAMPLES.glob("*.script")):
        whole_trace(program, script, script.with_suffix(".trace"))
        count += 1
    equal("there are many", count > 60, True)


def refusals(program):
    """Each stored refusal of a line is answered at that line in the words of `rio replay`, and the fabric goes on."""
    count = 0
    for script in sorted((CASES / "refused").glob("*.in")):
        words = script.with_suffix(".out").read_text().split()
        if script.stem in COSTS or len(words) != 3 or not words[1].isdigit():
            continue
        fabric = Port(program)
        answers = [asked(fabric, line) for line in lines_of(script)[: int(words[1])]]
        said = "rio: line %s: " % words[1]
        equal(script.stem, [line.startswith("refused %s " % words[2]) for line in answers[-1]], [True])
        why = said + answers[-1][0].split(" ", 2)[2]
        told = script.with_suffix(".err").read_text(encoding="latin-1")
        equal(script.stem, told[: len(why) + 1].rstrip("\n").rstrip(":"), why)
        equal(script.stem, [answer for answer in answers[:-1] if answer[:1] == ["refused"]], [])
        equal("as before", fabric.ask("# more"), [])
        fabric.end()
        count += 1
    equal("there are many", count > 40, True)


def forgotten(program):
    """Refused lines change nothing, before the first event and behind it."""
    fabric = Port(program)
    for line in SETUP:
        equal(line, fabric.ask(line), [])
    for line, why in [
        ("endpoint A 3", "4 a node of an earlier line has this name"),
        ("link A.0 B.0", "7 the port is linked already"),
        ("collect C", "5 no node of an earlier line has this name"),
        ("settle A.1", "6 the node has no port of this number"),
        ("stop", "1 no kind of line begins with this word"),
        ("endpoint C 3\r", "2 the line ends with a carriage return"),
    ]:
        equal(line, fabric.ask(line), ["refused " + why])
    equal("send", fabric.ask(SEND), TAKE)
    late = "12 a line that sets the fabric up may not come after an event"
    for line, why in [
        ("endpoint C 3", late),
        ("buffers A.0 5", late),
        ("send A 0 15 2 cafe000",
         "9 word 6 must be bytes of two lower-case hexadecimal digits each, or a hyphen for none"),
        ("pump A.0 0", "2 word 3 must be a number from 1 to 100000 in decimal"),
    ]:
        equal(line, fabric.ask(line), ["refused " + why])
    equal("settle", fabric.ask("settle A.0")[3], "hold B.0 " + PACKET)
    equal("collect", fabric.ask("collect B"), ["> collect B", "leave B " + PACKET])
    equal("run", fabric.ask("run 100000"), ["> run 100000"])
    equal("end", fabric.end(), 0)


def ends(program):
    """How it ends, and that the last line needs no line feed."""
    stop = b"refused 1 no kind of line begins with this word\nok\n"
    run = b"refused 1 this kind of line has 1 words after the first\nok\n"
    for text, wanted in [
        (b"", b"end\n"),
        (b"endpoint A 1", b"ok\nend\n"),
        (b"\n#\nstop\nrun", b"ok\nok\n" + stop + run + b"end\n"),
    ]:
        ended(program, text, wanted, 0)
    ended(program, b"stop\n", b"", 2, "replay")
    undetected = b"endpoint A 1\nendpoint B 2\nlink A.0 B.0\n" + b"".join(
        b"insert A.0 %d %s\n" % place for place in enumerate([b"k1c", b"d00", b"dff", b"d16"])
    )
    last = b"> deliver A.0 4\ngot B.0 k1c d00 dff d16\nundetected 8 B.0 symbol 0 0 31 7 0\nok\n"
    blocks = b"".join(b"> " + line + b"\nok\n" for line in undetected.split(b"\n")[3:-1])
    ended(program, undetected + b"deliver A.0 4\ncollect B\n", b"ok\n" * 3 + blocks + last, 7)


def long_lines(program):
    """A line of the most bytes is answered, and one more ends it."""
    text = b"endpoint A 1\n#" + b"x" * (MOST_LINE - 1) + b"\ncollect A\n#" + b"x" * (MOST_LINE - 1)
    data = b"\nsend A 0 15 2 " + b"0" * (MOST_LINE - 14) + b"\n"
    length = b"refused 10 the packet has a length that is not allowed: its data is an even number of bytes, at most 268 "
    length += b"(266 after send16), and of type 8 it is 6 and up to 8 times 8 bytes\nok\n"
    wanted = b"ok\nok\n> collect A\nempty\nok\nok\n" + length
    ended(program, text + data + b"x" * (MOST_LINE + 1) + b"\n", wanted, 8)


def largest_set_up(program):
    """A fabric of 64 nodes with 1,000 routes is set up."""
    lines = ["switch S%d 16" % place for place in range(4)] + ["endpoint E%d %d" % (place, place) for place in range(60)]
    lines += ["link S0.0 S1.0", "link S2.0 S3.0"]
    lines += ["route S%d %d %d" % (place % 4, place // 4, place % 16) for place in range(1000)]
    many = "a script may have 64 nodes, and its events may cost 100000: run N costs 20 N times the links, settle 20, "
    answers = "ok\n" * len(lines) + "refused 14 " + many + "pump and deliver N, others 1\nok\nend\n"
    ended(program, ("\n".join(lines) + "\nendpoint X 255\n").encode(), answers.encode(), 0)


def comments(program):
    """Comments and empty lines before the first event count for nothing, however long they are together."""
    comment = b"#" + b"x" * (MOST_LINE - 1) + b"\n"
    text = b"\nendpoint A 1\n" + comment * 4 + b"\ncollect A\n"
    ended(program, text, b"ok\n" * 7 + b"> collect A\nempty\nok\nend\n", 0)


def bytes_and_readers(program):
    byte_by_byte(program, b"collect A", b"refused 5 no node of an earlier line has this name\nok\n")
    gone(program, b"endpoint A 1\n")


if __name__ == "__main__":
    for case in (traces, refusals, forgotten, ends, long_lines, largest_set_up, comments, bytes_and_readers):
        case(sys.argv[1])
