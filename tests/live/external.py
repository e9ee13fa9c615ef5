"""A device outside beside the same device inside. A fabric in which rio_port is joined to the port S.0 by the line `external`, and
the fabric with `link` in its place, are given the same exchanges. Both tell the same lines, but for event lines: what the two
ports of the link send, get, hold and free, and what comes of it everywhere else.

usage: external.py PORT FABRIC    PORT: rio_port, FABRIC: rio_live. The status is 0 if all is as wanted.
"""
import random
import sys

from streams import equal
from two_ports import Port

SET_UP = """endpoint D 1
endpoint B 2
switch S 4
buffers S.0 {1}
buffers D.0 {0}
link B.0 S.1
route S 1 0
route S 2 1
"""
PEERS = {"D.0": "S.0", "S.0": "D.0"}
WORDS = {"queued": "take D", "taken": "leave D", "hold": "hold D.0", "free": "free D.0", "sent": "sent D.0"}


def as_delivery(lines):
    """What rio_port tells of characters, as a delivery has it: it tells each of its answers where it is made, and a delivery
    has them in one line, after what was held and freed."""
    answers = [char for line in lines if line.startswith("sent ") for char in line.split()[2:]]
    moves = [line for line in lines if not line.startswith("sent ")]
    return moves + ([" ".join(["sent D.0", *answers])] if answers else [])


class Inside:
    """A fabric, of which D is an endpoint, and what is on the wires of its link."""

    def __init__(self, program, buffers, joined="link D.0 S.0"):
        self.live, self.wires = Port(program), {"D.0": [], "S.0": []}
        for line in SET_UP.format(*buffers).splitlines() + [joined]:
            equal(line, self.live.ask(line), [])

    def told(self, answer):
        """The lines of an answer without event lines. Characters that a port of the link sends go on its wire."""
        lines = [line for line in answer if not line.startswith("> ")]
        for line in lines:
            word, port, *chars = line.split() + [""]
            if word == "sent" and port in self.wires:
                self.wires[port] += chars[:-1]
        return lines

    def line(self, line):
        """What comes of a line of a script."""
        return self.told(self.live.ask(line))

    def of_device(self, line):
        """What comes of a line that is one of the device or of its port."""
        return self.line(line)

    def deliver(self, port):
        """What is on the wire of a port comes to the other one."""
        chars, self.wires[port] = self.wires[port], []
        return self.arrived(port, chars) if chars else []

    def arrived(self, port, chars):
        return self.line("deliver %s %d" % (port, len(chars)))

    def late(self, port):
        """The time-out of a port fires, unless something is on its way."""
        if any(self.wires.values()):
            return []
        return self.of_device("timeout D.0") if port == "D.0" else self.line("timeout S.0")

    def end(self):
        self.live.end()


class Outside(Inside):
    """The same fabric with the device outside, which is a port of rio_port."""

    def __init__(self, program, buffers, port):
        self.port = Port(port, buffers[0])
        super().__init__(program, buffers, "external D.0 S.0")

    def own(self, line):
        """What the device says to a line of its own, as a trace has it."""
        told = []
        for said in self.port.ask(line):
            word, *rest = said.split()
            told.append(" ".join([WORDS.get(word, word), *rest]))
        return self.told(told)

    def of_device(self, line):
        word, _, *rest = line.split()
        if word == "send":
            prio, ftype, dest, contents = rest
            return self.own("send %s %s 1 %s %s" % (prio, ftype, dest, contents))
        if word == "pump":
            return self.own("turn " + rest[0])
        if word == "timeout":
            return ["fire D.0"] + self.own("timeout")
        return self.own("take")

    def arrived(self, port, chars):
        text = " ".join(chars)
        if port == "S.0":
            return ["got D.0 " + text] + as_delivery(self.own("got " + text))
        answer = self.live.ask("sent D.0 " + text)
        equal("the device's line", answer[0], "sent D.0 " + text)
        return self.told(answer[1:])

    def end(self):
        super().end()
        self.port.end()


def a_step(chance, number):
    """An exchange: how it is asked, and by which line or port."""
    kind = chance.randrange(12)
    if kind < 2:
        return "of_device", "send D %d 15 2 %08x" % (chance.randrange(4), number)
    if kind < 4:
        return "line", "send B %d 15 1 %08x" % (chance.randrange(4), number)
    if kind == 4:
        return "line", "read B %d 1 0 %d %06x" % (chance.randrange(3), number % 256, chance.choice([0x1C, 0x158, 0x178]))
    if kind < 7:
        return "deliver", chance.choice(["D.0", "S.0"])
    return chance.choice([
        ("of_device", "pump D.0 1"), ("line", "pump S.0 1"),
        ("line", "settle S.1"), ("line", "move S"), ("line", "collect B"), ("of_device", "collect D"),
        ("late", "D.0"), ("late", "S.0"),
    ])


ROUND = [("of_device", "pump D.0 1"), ("line", "pump S.0 1"), ("deliver", "D.0"), ("deliver", "S.0"), ("line", "settle S.1"),
         ("line", "move S"), ("line", "collect B"), ("of_device", "collect D")]
AT_REST = ["empty"], ["empty"], ["none"]


def compared(inside, outside, step):
    """What comes of a step, which is the same of both."""
    call, what = step
    told = getattr(inside, call)(what)
    equal(what, getattr(outside, call)(what), told)
    return told


def run(port, fabric, seed, buffers):
    chance = random.Random(seed)
    inside, outside = Inside(fabric, buffers), Outside(fabric, buffers, port)
    for number in range(600):
        compared(inside, outside, a_step(chance, number))
    for _ in range(400):
        told = [compared(inside, outside, step) for step in ROUND]
        if all(lines in ([], *AT_REST) for lines in told):
            break
    equal("both come to rest", all(lines in ([], *AT_REST) for lines in told), True)
    inside.end()
    outside.end()


def main(port, fabric):
    for seed, buffers in enumerate([(8, 8), (4, 4), (4, 8), (8, 4)], 1):
        run(port, fabric, seed, buffers)


if __name__ == "__main__":
    main(*sys.argv[1:])
