#!/usr/bin/env python3
"""Two ports over lanes that carry code groups, with one wrong bit in a tenth of the bursts.

usage: tests/lane/ports.py RIO_LANE RIO_PORT [PACKETS [SEED]]

What a port sends goes through `rio_lane sent`, gets its wrong bit, and goes through `rio_lane got` to the other port. The
status is 0 if what left is what was sent, in the order of each priority.
"""
import random
import subprocess
import sys

from model import with_wrong_bit

NOISE = 0.1


class Filter:
    """A program that writes a line for each line."""

    def __init__(self, *command):
        self.process = subprocess.Popen(command, stdin=subprocess.PIPE, stdout=subprocess.PIPE, stderr=subprocess.DEVNULL)

    def line(self, text):
        self.process.stdin.write(text.encode() + b"\n")
        self.process.stdin.flush()
        return self.process.stdout.readline().decode().rstrip("\n")


class Port(Filter):
    """`rio_port`, whose answers end with `ok`."""

    def ask(self, text):
        answer = [self.line(text)]
        while answer[-1] != "ok":
            answer.append(self.process.stdout.readline().decode().rstrip("\n"))
        return answer[:-1]


class Lane:
    """One direction between two ports."""

    def __init__(self, program, chance):
        self.coder, self.hearer = Filter(program, "sent"), Filter(program, "got")
        self.chance, self.wrong = chance, 0
        self.bursts = []

    def put(self, answer):
        self.bursts += [line for line in answer if line.startswith("sent ")]

    def carry(self):
        """The line of characters that the far port gets."""
        groups = self.coder.line(self.bursts.pop(0)).split()[1:]
        if self.chance.random() < NOISE:
            self.wrong += 1
            groups = with_wrong_bit(groups, self.chance.randrange(1, len(groups) - 1), self.chance.randrange(10))
        return self.hearer.line("got " + " ".join(groups))


def step(chance, ports, lanes, queued, left, wanted):
    """One event at one end."""
    end = chance.randrange(2)
    if lanes[end].bursts and chance.random() < 0.7:
        lanes[1 - end].put(ports[1 - end].ask(lanes[end].carry()))
    elif sum(map(len, queued)) < wanted and chance.random() < 0.3:
        prio = chance.randrange(4)
        data = chance.randbytes(2 * chance.randrange(1, 40)).hex()
        answer = ports[end].ask(f"send {prio} 15 {end + 1} {2 - end} {data}")
        queued[end] += [(prio, line.split()[1]) for line in answer if line.startswith("queued")]
    else:
        lanes[end].put(ports[end].ask("turn 1"))
        left[end] += [line.split()[1] for line in ports[end].ask("take") if line.startswith("taken")]
    if not lanes[0].bursts and not lanes[1].bursts and chance.random() < 0.1:
        ports[chance.randrange(2)].ask("timeout")


def main(lane, port, packets="200", seed="1"):
    chance = random.Random(int(seed))
    ports = [Port(port, "8"), Port(port, "8")]
    lanes = [Lane(lane, chance), Lane(lane, chance)]
    queued, left = [[], []], [[], []]
    for _ in range(400 * int(packets)):
        step(chance, ports, lanes, queued, left, int(packets))
        if sum(map(len, left)) == int(packets):
            break
    good = all([one for prio, one in queued[end] if prio == level]
               == [one for one in left[1 - end] if int(one[2:4], 16) >> 6 == level]
               for end in (0, 1) for level in range(4))
    wrong = sum(one.wrong for one in lanes)
    print(f"{sum(map(len, left))} packets left, {'as' if good else 'NOT as'} they were sent; {wrong} wrong bits")
    return 0 if good and sum(map(len, left)) == int(packets) else 1


if __name__ == "__main__":
    sys.exit(main(*sys.argv[1:]))
