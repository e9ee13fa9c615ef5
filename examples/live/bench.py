#!/usr/bin/env python3
"""A bench: a device of one's own beside rio_port, over a wire with faults, with a log that `rio check` reads.

usage: bench.py [PROGRAM [PACKETS [FAULTS [SEED]]]] > LOG

PROGRAM is rio_port, unless it is given. PACKETS go each way, 300 unless it is said, and FAULTS of 100 bursts get a fault.
The log has the set-up lines, a line ---, and a line for all that happened at both ends: A is the device, B is the port.
The status is 0 if all packets left that were sent.

What a bench must not forget: to look whether a packet found room (`full`), to take what is held (`take`), turns while
anything is to be sent (`turn`), time-outs once nothing moves (`timeout`), and a line at a time to the program.
"""
import random
import sys

from device import Device, link_form
from two_ports import Port

SET_UP = "endpoint A 1\nendpoint B 2\nlink A.0 B.0\n---\n"
WORDS = {"queued": "take B", "taken": "leave B", "hold": "hold B.0", "free": "free B.0", "fire": "fire B.0"}


class Bench:
    """Both ends, the two ways of the wire between them, and the log."""

    PORT_WORDS = ()

    def __init__(self, program, faults, chance):
        self.device, self.port = Device(), Port(program, *self.PORT_WORDS)
        self.wires = {"A": [], "B": []}
        self.faults, self.chance = faults, chance
        self.left, self.freed = {"A": [], "B": []}, 0

    def log(self, line):
        self.freed += line.startswith("free ")
        sys.stdout.write(line + "\n")

    def put(self, end, chars):
        """A burst goes on the wire of an end, and may get a fault there: a character is lost, or becomes another."""
        if not chars:
            return
        self.log("sent %s.0 %s" % (end, " ".join(chars)))
        wire = self.wires[end]
        wire += chars
        if self.chance.random() * 100 >= self.faults:
            return
        place = len(wire) - 1 - self.chance.randrange(len(chars))
        if self.chance.random() < 0.3:
            self.log("> erase %s.0 %d 1" % (end, place))
            del wire[place]
        elif wire[place] == "inv":
            return
        else:
            wire[place] = "inv" if wire[place][0] == "k" else "d%02x" % (int(wire[place][1:], 16) ^ 1 << place % 8)
            self.log("> alter %s.0 %d %s" % (end, place, wire[place]))

    def ask(self, line):
        """A line for the port: all that it answers is logged, and what it sends goes on its wire."""
        answer = self.port.ask(line)
        for said in answer:
            word, *rest = said.split()
            if word == "sent":
                self.put("B", rest)
            elif word in WORDS:
                self.log(" ".join([WORDS[word], *rest]))
            if word == "taken":
                self.left["B"] += rest
        return answer

    def device_got(self, char):
        held, freed, replies = self.device.got(char)
        for packet in held:
            self.log("hold A.0 " + packet)
        for packet in freed:
            self.log("free A.0 " + packet)
        for chars in replies:
            self.put("A", chars)

    def deliver(self):
        """What is on the wires comes to the other end: to the device character by character, to the port in one line."""
        chars, self.wires["A"] = self.wires["A"], []
        if chars:
            self.log("got B.0 " + " ".join(chars))
            self.ask("got " + " ".join(chars))
        chars, self.wires["B"] = self.wires["B"], []
        if chars:
            self.deliver_to_device(chars)

    def deliver_to_device(self, chars):
        """A piece ends where the device tells something, so that the log has it behind the character that did it."""
        while chars:
            count = self.chance.randrange(1, len(chars) + 1)
            self.log("got A.0 " + " ".join(chars[:count]))
            for char in chars[:count]:
                self.device_got(char)
            chars = chars[count:]

    def take(self):
        """A packet that the device holds leaves, or there will be no room for others."""
        packet = self.device.take()
        if packet is not None:
            self.left["A"].append(packet)
            self.log("leave A " + packet)

    def offer(self, number):
        """A packet is to be sent from each end, unless its list is full: then it is offered once more, later."""
        prio, contents = self.chance.randrange(4), number.to_bytes(4, "big") + bytes(2 * self.chance.randrange(20))
        packet = link_form(prio, 15, 1, 2, contents)
        while not self.device.offer(packet):
            self.round()
        self.log("take A " + packet)
        while self.ask("send %d 15 2 1 %s" % (prio, contents.hex())) == ["full"]:
            self.round()

    def round(self):
        """Turns of both, what they sent is delivered, and what is held leaves. If nothing moved, a time-out comes."""
        self.put("A", self.device.turn())
        self.ask("turn %d" % self.chance.randrange(1, 3))
        moved = self.wires["A"] or self.wires["B"]
        self.deliver()
        self.take()
        self.ask("take")
        if not moved and not self.wires["A"] and not self.wires["B"]:
            self.late()

    def is_done(self, packets):
        """Whether so many packets have left at each end, and each was freed."""
        return len(self.left["A"]) == len(self.left["B"]) == packets and self.freed == 2 * packets

    def late(self):
        """Nothing moves, though an end waits for an answer."""
        self.late_device()
        state = dict(line.split() for line in self.ask("state"))
        if state["outstanding"] != "0" or state["output"] != "ok":
            self.log("fire B.0")
            self.ask("timeout")

    def late_device(self):
        """The device has waited too long, if it waits."""
        if self.device.waits():
            self.log("fire A.0")
            self.device.time_out()


def main(words, kind=Bench):
    program, packets, faults, seed = words + ["rio_port", "300", "2", "1"][len(words):]
    bench = kind(program, float(faults), random.Random(int(seed)))
    sys.stdout.write(SET_UP)
    for number in range(int(packets)):
        bench.offer(number)
        bench.round()
    for _ in range(100 * int(packets)):
        if bench.is_done(int(packets)):
            break
        bench.round()
    bench.log("end")
    bench.port.end()
    good = bench.is_done(int(packets))
    print("%d packets each way%s" % (int(packets), "" if good else ": NOT all left"), file=sys.stderr)
    return 0 if good else 1


if __name__ == "__main__":
    sys.exit(main(sys.argv[1:]))
