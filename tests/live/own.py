"""The lines of rio_live's own: what is written while quiet is what rio replay writes, without the lines with characters,
a run while endpoints are served is what it writes of the rounds, in each of which these collect, and an ask is what it
writes of a request and of rounds until the response leaves, which the last line tells.

usage: own.py FABRIC RIO    FABRIC: rio_live, RIO: rio. The status is 0 if all is as wanted.
"""
import subprocess
import sys

from streams import equal
from two_ports import Port

TREE = [
    "endpoint A 1", "endpoint B 2", "endpoint C 3", "switch S 4", "link A.0 S.0", "link B.0 S.1", "link C.0 S.2",
    "route S 1 0", "route S 2 1", "route S 3 2", "credits S.1",
]
EVENTS = [
    "read A 0 2 255 7 000068", "write A 0 3 255 8 00006c 0000beef", "send B 3 11 1 cafe0001", "run 1", "run 3",
    "alter B.0 0 d00", "send C 0 15 2 cafe0002", "pump C.0 1", "insert C.0 3 kbc", "run 4", "collect A", "run 2",
]


def replayed(rio, lines):
    """The trace of a script, without its last line."""
    text = "".join(line + "\n" for line in lines)
    trace = subprocess.run([rio, "replay"], input=text, capture_output=True, text=True, timeout=60, check=True).stdout
    return trace.splitlines()[:-1]


def answered(fabric, lines):
    """The lines of the answers, one after another."""
    return [told for line in lines for told in fabric.ask(line)]


def without_characters(lines):
    return [line for line in lines if not line.startswith(("sent ", "got "))]


def is_quiet(program, rio):
    """Quiet answers lack the lines with characters, and no others."""
    whole = replayed(rio, TREE + EVENTS)
    fabric = Port(program)
    equal("quiet", answered(fabric, ["quiet", "quiet"] + TREE + EVENTS), without_characters(whole))
    fabric = Port(program)
    told = answered(fabric, TREE)
    for place, event in enumerate(EVENTS):
        told += fabric.ask("quiet" if place % 2 else "loud") + fabric.ask(event)
    here = 0
    for place, event in enumerate(EVENTS):
        start = whole.index("> " + event, here)
        here = next((at for at in range(start + 1, len(whole)) if whole[at].startswith("> ")), len(whole))
        block = whole[start:here]
        block = without_characters(block) if place % 2 else block
        equal(event, told[: len(block)], block)
        told = told[len(block) :]
    equal("no more is told", told, [])
    equal("a quiet end", fabric.end(), 0)


def rounds(lines, served):
    """The lines with each `run N` as N times one round, and these endpoints behind it."""
    collects = ["collect " + name for name in served]
    return [
        event
        for line in lines
        for event in ((["run 1"] + collects) * int(line[4:]) if line.startswith("run ") and served else [line])
    ]


def is_served(program, rio):
    """While endpoints are served, a run is answered as its rounds are, in which each of them collects."""
    for own, served in [
        (["serve all"], "ABC"),
        (["serve B"], "B"),
        (["serve C", "serve A", "serve C"], "AC"),
        (["serve C", "serve all"], "ABC"),
        ([], ""),
    ]:
        whole = replayed(rio, TREE + rounds(EVENTS, served))
        fabric = Port(program)
        equal("served %s" % own, answered(fabric, TREE + own + EVENTS), whole)
        equal("its end", fabric.end(), 0)
        fabric = Port(program)
        equal("quiet, served %s" % own, answered(fabric, TREE + ["quiet"] + own + EVENTS), without_characters(whole))
        equal("its end", fabric.end(), 0)
    whole = replayed(rio, TREE + rounds(EVENTS, "ABC"))
    equal("all, before the first", answered(Port(program), ["serve all"] + TREE + EVENTS), whole)
    half = len(EVENTS) // 2
    whole = replayed(rio, TREE + EVENTS[:half] + rounds(EVENTS[half:], "A"))
    equal("from then on", answered(Port(program), TREE + EVENTS[:half] + ["serve A"] + EVENTS[half:]), whole)
    whole = replayed(rio, ["switch S 2", "run 2"])
    equal("no endpoint", answered(Port(program), ["serve all", "switch S 2", "run 2"]), whole)


def is_not_served(program):
    """What is refused, in the words for the line that has the node collect."""
    fabric = Port(program)
    early = "refused 5 no node of an earlier line has this name"
    equal("too early", fabric.ask("serve A"), [early])
    for line in TREE:
        equal(line, fabric.ask(line), [])
    for line, why in [
        ("serve D", early),
        ("serve S", "refused 11 the node is of the wrong kind for this line"),
        ("serve 1A", "refused 3 word 2 must be a letter and up to seven letters or digits"),
        ("serve A B", "refused 1 this kind of line has 1 words after the first"),
        ("serve", "refused 1 no kind of line begins with this word"),
    ]:
        equal(line, fabric.ask(line), [why])
    events = [line for line in fabric.ask("run 2") if line.startswith("> ")]
    equal("nothing is served", events, ["> run 2"])
    equal("the end", fabric.end(), 0)


def refusals(program):
    """What is refused, and that it changes nothing."""
    fabric = Port(program)
    for line in TREE:
        equal(line, fabric.ask(line), [])
    for line, why in [
        ("quiet A", "1 no kind of line begins with this word"),
        (" loud", "1 the line begins with a space"),
        ("QUIET", "1 no kind of line begins with this word"),
    ]:
        told = fabric.ask(line)
        equal(line, [told[0][: len("refused " + why)], len(told)], ["refused " + why, 1])
    equal("all is told still", fabric.ask("send A 0 15 2 cafe0001")[0], "> send A 0 15 2 cafe0001")
    equal("and with characters", fabric.ask("pump A.0 1")[1].split()[0], "sent")
    equal("the end", fabric.end(), 0)


def undetected(program):
    """An event that was acted on and not sent ends the answer of a run, which is the last."""
    fabric = Port(program)
    lines = ["endpoint A 1", "endpoint B 2", "link A.0 B.0", "quiet"]
    edits = ["insert A.0 %d %s" % place for place in enumerate(["k1c", "d00", "dff", "d16"])]
    answered(fabric, lines + edits)
    equal("it ends", fabric.ask("run 5"), ["> run 5", "undetected 9 B.0 symbol 0 0 31 7 0"])
    equal("with its status", fabric.end(), 7)
    fabric = Port(program)
    answered(fabric, lines + edits + ["serve all"])
    equal("served, it ends", fabric.ask("run 5"), ["> run 1", "undetected 10 B.0 symbol 0 0 31 7 0"])
    equal("with its status", fabric.end(), 7)
    fabric = Port(program)
    answered(fabric, lines + edits)
    told = fabric.ask("ask read B 0 1 255 7 000060")
    equal("asked, it ends", [told[0], told[-1]], ["> read B 0 1 255 7 000060", "undetected 9 B.0 symbol 0 0 31 7 0"])
    equal("with its status", fabric.end(), 7)


# a request, and what its response says, by docs/registers.md
ASKS = [
    ("read A 0 2 255 7 000060", "value 0002ffff"),
    ("read A 0 2 255 7 000064", "error 7"),
    ("write A 0 3 255 8 00006c 0000beef", "written"),
    ("read A 0 3 255 9 00006c", "value 0000beef"),
    ("read A 0 3 255 9 000068", "value 0000ffff"),
    ("read A 0 3 0 10 000070", "value 00000000"),
    ("write A 3 2 0 11 000070 00000002", "written"),
    ("read A 0 1 255 12 000001", "error 7"),
    ("write A 0 2 255 12 000000 00000001", "error 7"),
    ("read B 2 3 255 13 00006c", "value 0000beef"),
    ("read A 0 9 255 14 00006c", "unanswered"),
    ("read A 0 2 255 255 000060", "value 0002ffff"),
]
MOST = 128


def last_of(told, host, tid):
    """The place behind the first line with which a response with this transaction number leaves at the host, or None."""
    for place, line in enumerate(told):
        words = line.split()
        if words[:2] == ["leave", host]:
            packet = bytes.fromhex(words[2])
            if packet[1] & 15 == 8 and packet[4] >> 4 in (2, 3) and packet[5] == tid:
                return place + 1
    return None


def is_asked(program, rio):
    """The blocks of an ask are those of its request and of its rounds, and the last line is what the response says."""
    for own, served in [(["serve all"], "ABC"), (["serve B", "serve C"], "BC"), (["serve A"], "A")]:
        for loud in ([], ["quiet"]):
            fabric = Port(program)
            lines = list(TREE)
            whole = answered(fabric, TREE + loud + own)
            for request, said in ASKS:
                host, tid = request.split()[1], int(request.split()[5])
                told = fabric.ask("ask " + request)
                if "B" not in served and " 2 255 " in request or "C" not in served and " 3 255 " in request:
                    said = "unanswered"
                equal(request, told[-1], said)
                events = [line[2:] for line in told if line.startswith("> ")]
                others = ["collect " + name for name in served if name != host]
                count = (len(events) - 1) // (len(others) + 2)
                equal(request, events, [request] + (["run 1"] + others + ["collect " + host]) * count)
                equal(request, last_of(told, host, tid), None if said == "unanswered" else len(told) - 1)
                equal(request, count <= MOST and (said != "unanswered" or count == MOST), True)
                lines += events
                whole += told[:-1]
            trace = replayed(rio, lines)
            equal("the trace of asks", whole, without_characters(trace) if loud else trace)
            equal("its end", fabric.end(), 0)


def is_not_asked(program):
    """What is refused behind ask, and that it changes nothing: a line of set-up is not taken."""
    form = "refused 1 no kind of line has this form"
    for lines in (TREE, TREE + ["send A 0 15 2 cafe0001"]):
        fabric = Port(program)
        answered(fabric, lines)
        for line, why in [
            ("ask run 1", form),
            ("ask collect A", form),
            ("ask send A 0 15 2 cafe0001", form),
            ("ask endpoint D 7", form),
            ("ask lock A 0", form),
            ("ask endpoint A 7", "refused 4 a node of an earlier line has this name"),
            ("ask read D 0 2 255 7 000068", "refused 5 no node of an earlier line has this name"),
            ("ask read S 0 2 255 7 000068", "refused 11 the node is of the wrong kind for this line"),
            ("ask read A 4 2 255 7 000068", "refused 2 word 3 must be a number from 0 to 3 in decimal"),
            ("ask read A 0 2 255 7", "refused 1 this kind of line has 6 words after the first"),
            ("ask  read A 0 2 255 7 000068", "refused 1 the line begins with a space"),
            ("ask quiet", "refused 1 no kind of line begins with this word"),
            ("ask ask read A 0 2 255 7 000068", "refused 1 no kind of line begins with this word"),
            ("ask ", "refused 1 no kind of line begins with this word"),
            ("ask", "refused 1 no kind of line begins with this word"),
        ]:
            equal(line, fabric.ask(line), [why])
        equal("no node came", fabric.ask("collect D"), ["refused 5 no node of an earlier line has this name"])
        equal("the end", fabric.end(), 0)


def finds_no_room(program):
    """A request that finds no room has no round."""
    fabric = Port(program)
    answered(fabric, TREE + ["serve all"])
    request = "read A 0 2 255 7 000060"
    while fabric.ask(request)[-1] != "full":
        pass
    equal("no room", fabric.ask("ask " + request), ["> " + request, "full", "unanswered"])
    equal("the end", fabric.end(), 0)


def others_leave(program):
    """Other packets that leave at the host are told, and the rounds go on: also a response with another number."""
    fabric = Port(program)
    answered(fabric, TREE + ["quiet", "serve all", "send B 3 11 1 cafe0001", "read A 3 2 255 6 000060"])
    told = fabric.ask("ask read A 0 2 255 7 000060")
    equal("three leave", len([line for line in told if line.startswith("leave A ")]), 3)
    equal("the last is told", told[-1], "value 0002ffff")
    equal("it is the last", told[-2].startswith("leave A "), True)
    equal("its number", last_of(told, "A", 7), len(told) - 1)
    equal("the end", fabric.end(), 0)


def block(fabric, hop):
    """What is read at the offsets that standard hosts look for: at the switch S for hop 0, at the endpoint B for 255."""
    return [fabric.ask(f"ask read A 0 2 {hop} 7 {offset}")[-1] for offset in ("000018", "00001c", "000100")]


def shows_standard(program):
    """The devices that a line `standard` names show what docs/registers.md has, and no others do. No set-up follows it."""
    absent = 3 * ["error 7"]
    endpoint = ["value 0000f000", "value 0000f000", "value 00000001"]
    switch = ["value 00000000", "value 00000000", "value 00000003"]
    after_event = "refused 12 a line that sets the fabric up may not come after an event"
    for line, at_endpoint, at_switch in [
        ("standard B", endpoint, absent),
        ("standard S", absent, switch),
        ("standard all", endpoint, switch),
    ]:
        fabric = Port(program)
        answered(fabric, TREE + ["serve all", "quiet"])
        equal(line, fabric.ask(line), [])
        equal("no set-up", fabric.ask("endpoint D 7"), [after_event])
        equal(line, (block(fabric, 255), block(fabric, 0)), (at_endpoint, at_switch))
        equal("the end", fabric.end(), 0)
    fabric = Port(program)
    answered(fabric, TREE + ["serve all", "quiet"])
    equal("no device", fabric.ask("standard D"), ["refused 5 no node of an earlier line has this name"])
    equal("set-up goes on", fabric.ask("endpoint D 7"), [])
    equal("nobody asked", (block(fabric, 255), block(fabric, 0)), (absent, absent))
    equal("later", fabric.ask("standard all"), [])
    equal("later", (block(fabric, 255), block(fabric, 0)), (endpoint, switch))
    equal("the end", fabric.end(), 0)


def main(program, rio):
    is_quiet(program, rio)
    is_served(program, rio)
    is_not_served(program)
    is_asked(program, rio)
    is_not_asked(program)
    finds_no_room(program)
    others_leave(program)
    shows_standard(program)
    refusals(program)
    undetected(program)


if __name__ == "__main__":
    main(*sys.argv[1:])
