"""Random exchanges between two ports, and the same as scripts that `rio replay` carries out: each event has one outcome.

usage: replay.py PROGRAM RIO [SCRIPTS]    PROGRAM: rio_port. Each script has 1,000 events.
"""
import pathlib
import random
import subprocess
import sys

sys.path.insert(0, str(pathlib.Path(__file__).parents[2] / "examples" / "live"))
from two_ports import Port, characters  # noqa: E402

SETUP = "endpoint A 1\nendpoint B 2\nlink A.0 B.0\nbuffers A.0 5\nbuffers B.0 7\nlarge A 4097\nlarge B 8194\n"
# The IDs of both ends, by the word that sends a packet with them.
IDS = {"send": (1, 2), "send16": (4097, 8194)}
EVENTS = 1000
NAMES = "AB"
WORDS = {"take": "queued", "leave": "taken"}


def joined(lines):
    """An answer with all its bursts in one, behind the rest."""
    chars = sum(characters(lines), [])
    rest = [line for line in lines if not line.startswith("sent ")]
    return rest + ([" ".join(["sent"] + chars)] if chars else [])


def plain(line):
    """A line of a trace without the name of its port or its node."""
    words = line.split()
    if len(words) > 1:
        words = [WORDS.get(words[0], words[0])] + words[2:]
    return " ".join(words)


def blocks(trace):
    """What each event of a trace did, but for what was got and that a time-out fired."""
    found = []
    for line in trace.splitlines():
        if line.startswith("> "):
            found.append([])
        elif found and not line.startswith(("got ", "fire ")) and line != "end":
            found[-1].append(plain(line))
    return found


class Exchange:
    """Two ports, their wires, the script so far, and what each of its events did."""

    def __init__(self, program, chance):
        self.ports = [Port(program, 5), Port(program, 7)]
        self.wires = [[], []]
        self.chance = chance
        self.script = []
        self.done = []

    def note(self, event, answer):
        self.script.append(event)
        self.done.append(joined(answer))

    def asked(self, end, event, line):
        """An end is asked, and what it sends goes on its wire."""
        answer = self.ports[end].ask(line)
        self.wires[end] += sum(characters(answer), [])
        self.note(event, answer)

    def edited(self, end):
        """A character of a wire breaks, or all are lost."""
        name, wire = NAMES[end], self.wires[end]
        place = self.chance.randrange(len(wire))
        if self.chance.random() < 0.7:
            wire[place] = "inv"
            self.note("alter %s.0 %d inv" % (name, place), [])
        else:
            self.note("erase %s.0 0 %d" % (name, len(wire)), [])
            wire.clear()

    def delivered(self, end):
        """Some characters of a wire come to the other end."""
        count = self.chance.randrange(1, len(self.wires[end]) + 1)
        came = self.wires[end][:count]
        del self.wires[end][:count]
        self.asked(1 - end, "deliver %s.0 %d" % (NAMES[end], count), "got " + " ".join(came))

    def sent(self, end):
        prio, data = self.chance.randrange(4), self.chance.randbytes(2 * self.chance.randrange(1, 9)).hex()
        word = self.chance.choice(list(IDS))
        source, dest = IDS[word][end], IDS[word][1 - end]
        event = "%s %s %d 11 %d %s" % (word, NAMES[end], prio, dest, data)
        self.asked(end, event, "%s %d 11 %d %d %s" % (word, prio, source, dest, data))

    def turned(self, end):
        count = self.chance.randrange(1, 4)
        self.asked(end, "pump %s.0 %d" % (NAMES[end], count), "turn %d" % count)

    def step(self):
        """One event at random."""
        end, kind = self.chance.randrange(2), self.chance.random()
        if kind < 0.2:
            self.sent(end)
        elif kind < 0.3:
            self.asked(end, "collect " + NAMES[end], "take")
        elif not any(self.wires) and kind < 0.4:
            self.asked(end, "timeout %s.0" % NAMES[end], "timeout")
        elif self.wires[end]:
            self.edited(end) if kind > 0.96 else self.delivered(end)
        else:
            self.turned(end)


def main(program, rio, scripts):
    for seed in range(scripts):
        exchange = Exchange(program, random.Random(seed))
        for _ in range(EVENTS):
            exchange.step()
        script = SETUP + "".join(event + "\n" for event in exchange.script)
        ran = subprocess.run([rio, "replay"], input=script.encode(), capture_output=True)
        if ran.returncode != 0:
            sys.exit("seed %d: rio ends with %d" % (seed, ran.returncode))
        for event, own, other in zip(exchange.script, exchange.done, blocks(ran.stdout.decode())):
            if own != other:
                sys.exit("seed %d, %s: %r, and rio %r" % (seed, event, own, other))
        for port in exchange.ports:
            port.end()


if __name__ == "__main__":
    main(sys.argv[1], sys.argv[2], int(sys.argv[3]) if len(sys.argv) > 3 else 10)
