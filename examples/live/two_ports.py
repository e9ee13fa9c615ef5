#!/usr/bin/env python3
"""Joins two ports by a noisy wire, and checks that what left at the one is what was sent at the other.

usage: two_ports.py [PROGRAM [PACKETS [SEED]]]     PROGRAM: rio_port, unless it is given

Each port is a process. A line is written to it, and its answer is read up to the line `ok`, before the next is written.
The wire loses whole bursts, breaks single characters, and turns single bits of data characters over. Each of these is
found by a check of the link. The last line says how many packets left, and the status is 0 if they are those that were
sent, in the order of their priority.
"""
import random
import subprocess
import sys

PRIORITIES = 4


class Port:
    """A program that answers line by line, as a process: `rio_port` with so many buffers, or `rio_live`."""

    def __init__(self, program, *words):
        command = [program] + [str(word) for word in words]
        self.process = subprocess.Popen(command, stdin=subprocess.PIPE, stdout=subprocess.PIPE)

    def ask(self, line):
        """Writes a line, and answers the lines of its answer, without `ok`."""
        self.process.stdin.write(line.encode() + b"\n")
        self.process.stdin.flush()
        answer = []
        while True:
            line = self.process.stdout.readline().decode()
            if not line:
                raise EOFError("the port is gone")
            if line == "ok\n":
                return answer
            answer.append(line.rstrip("\n"))

    def end(self):
        """Ends the input, and answers the exit status."""
        self.process.communicate()
        return self.process.returncode


def characters(answer):
    """The characters of each burst of an answer."""
    return [line.split()[1:] for line in answer if line.startswith("sent ")]


def packets(answer, word):
    """The packets of an answer that stand behind a word."""
    return [line.split()[1] for line in answer if line.startswith(word + " ")]


def disturbed(burst, noise, chance):
    """What comes of a burst on a noisy wire: nothing, the burst, or the burst with one error."""
    if chance.random() >= noise:
        return burst
    kind = chance.randrange(3)
    if kind == 0:
        return []
    place = chance.randrange(len(burst))
    if kind == 1 or not burst[place].startswith("d"):
        broken = "inv"
    else:
        broken = "d%02x" % (int(burst[place][1:], 16) ^ 1 << chance.randrange(8))
    return burst[:place] + [broken] + burst[place + 1 :]


class Link:
    """Two ports, and the two ways of a noisy wire between them."""

    def __init__(self, program, noise, chance):
        self.ports = [Port(program, 6), Port(program, 9)]
        self.wires = [[], []]
        self.noise = noise
        self.chance = chance
        self.queued = [[], []]
        self.left = [[], []]

    def put(self, end, answer):
        """Puts the bursts of an answer on the wire of an end."""
        for burst in characters(answer):
            self.wires[end] += disturbed(burst, self.noise, self.chance)

    def send(self, end):
        """Offers a packet to be sent."""
        data = self.chance.randbytes(2 * self.chance.randrange(1, 40))
        prio = self.chance.randrange(PRIORITIES)
        line = "send %d 15 %d %d %s" % (prio, end + 1, 2 - end, data.hex())
        self.queued[end] += [(prio, packet) for packet in packets(self.ports[end].ask(line), "queued")]

    def turn(self, end):
        """Gives an end turns, and takes what is held there."""
        self.put(end, self.ports[end].ask("turn %d" % self.chance.randrange(1, 4)))
        if self.chance.random() < 0.5:
            self.left[end] += packets(self.ports[end].ask("take"), "taken")

    def deliver(self, end):
        """Hands characters to the other end."""
        wire = self.wires[end]
        count = self.chance.randrange(1, len(wire) + 1)
        self.wires[end] = wire[count:]
        self.put(1 - end, self.ports[1 - end].ask("got " + " ".join(wire[:count])))

    def step(self, more):
        """Does one thing at random."""
        end = self.chance.randrange(2)
        if more and self.chance.random() < 0.3:
            self.send(end)
        elif self.wires[end]:
            self.deliver(end)
        else:
            self.turn(end)
        if not self.wires[0] and not self.wires[1] and self.chance.random() < 0.1:
            self.ports[self.chance.randrange(2)].ask("timeout")

    def is_done(self):
        """Whether all that was queued has left."""
        return all(len(self.left[1 - end]) == len(self.queued[end]) for end in (0, 1))

    def is_faithful(self):
        """Whether what left is what was queued, in order within each priority."""
        for end in (0, 1):
            for prio in range(PRIORITIES):
                sent = [packet for own, packet in self.queued[end] if own == prio]
                left = [p for p in self.left[1 - end] if int(p[2:4], 16) >> 6 == prio]
                if sent != left:
                    return False
        return True


def main(words):
    wanted = int(words[1]) if len(words) > 1 else 200
    chance = random.Random(int(words[2]) if len(words) > 2 else 1)
    link = Link(words[0] if words else "rio_port", 0.05, chance)
    steps = 0
    while len(link.queued[0]) + len(link.queued[1]) < wanted:
        link.step(True)
        steps += 1
    # What is left comes through, though the wire stays noisy.
    while not link.is_done() and steps < 1000 * wanted:
        link.step(False)
        steps += 1
    ends = [port.end() for port in link.ports]
    count = len(link.left[0]) + len(link.left[1])
    good = link.is_done() and link.is_faithful() and ends == [0, 0]
    print("%d packets left, %s" % (count, "as they were sent" if good else "NOT as they were sent"))
    return 0 if good else 1


if __name__ == "__main__":
    sys.exit(main(sys.argv[1:]))
