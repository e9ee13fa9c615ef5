#!/usr/bin/env python3
"""A device of one's own as an endpoint of a fabric, by its characters.

usage: external.py [LIVE [PACKETS [FAULTS [SEED]]]] > LOG

The endpoint D of a fabric of rio_live is a device outside: the port S.0 stands beside its port D.0. What the device sends is
given to the fabric by lines `sent D.0 CHARS`, and what S.0 answers and sends comes to the device. So the device meets the
link layer of the fabric at its own wire, and routes, other hosts and full switches behind it.

LIVE is rio_live, unless it is given. PACKETS go each way between the device and B, 100 unless it is said, and FAULTS of 100
bursts of the device's link get a fault. The log comes on standard output, and `rio check` reads it: it is the trace of the
fabric with what the device says of itself, and with `link` in place of `external`. The status is 0 if all packets came that
were sent, in the order of their priority.
"""
import random
import sys

from device import Device, link_form, prio_of
from two_ports import Port

SET_UP = """endpoint D 1
endpoint B 2
switch S 4
switch T 4
external D.0 S.0
link S.1 T.1
link B.0 T.0
route S 1 0
route S 2 1
route T 1 1
route T 2 0
"""


class Fabric:
    """A fabric of rio_live with ports that face out, and the log of it and of the devices beside them."""

    def __init__(self, program, set_up):
        self.live, self.freed = Port(program), 0
        lines = set_up.splitlines()
        for line in sorted(lines, key=lambda line: line.startswith("external ")):
            self.ask(line)
        for line in lines + ["---"]:
            sys.stdout.write(line.replace("external ", "link ") + "\n")

    def ask(self, line):
        answer = self.live.ask(line)
        for said in answer:
            if said.startswith("refused "):
                raise ValueError(f"{line}: {said}")
        return answer

    def log(self, line):
        self.freed += line.startswith("free ")
        sys.stdout.write(line + "\n")

    def tell(self, line):
        """A line whose answer is told as it is."""
        answer = self.ask(line)
        for said in answer:
            self.log(said)
        return answer

    def send(self, node, prio, dest, contents):
        """A node sends a packet. Answers whether there was room."""
        return "full" not in self.tell("send %s %d 15 %d %s" % (node, prio, dest, contents.hex()))

    def collect(self, node):
        """The packets that leave at a node."""
        return [line.split()[2] for line in self.tell("collect " + node) if line.startswith("leave ")]


class Joint:
    """A port of a device, the port of the fabric beside it, and the wires between them."""

    def __init__(self, fabric, own, beside, faults, chance):
        self.fabric, self.own, self.beside = fabric, own, beside
        self.layer, self.wires = Device(), {own: [], beside: []}
        self.faults, self.chance = faults, chance

    def put(self, end, chars):
        """A burst goes on the wire of an end, and may get a fault there: a character is lost, or becomes another."""
        if not chars:
            return
        self.fabric.log("sent %s %s" % (end, " ".join(chars)))
        wire = self.wires[end]
        wire += chars
        if self.chance.random() * 100 >= self.faults:
            return
        place = len(wire) - 1 - self.chance.randrange(len(chars))
        if self.chance.random() < 0.3:
            self.fabric.log("> erase %s %d 1" % (end, place))
            del wire[place]
        elif wire[place] != "inv":
            wire[place] = "inv" if wire[place][0] == "k" else "d%02x" % (int(wire[place][1:], 16) ^ 1 << place % 8)
            self.fabric.log("> alter %s %d %s" % (end, place, wire[place]))

    def hear(self, answer):
        """What the fabric says: its port's characters go on the wire, and all else is told."""
        for said in answer:
            word, *rest = said.split()
            if word == "sent":
                self.put(self.beside, rest[1:])
            else:
                self.fabric.log(said)

    def turns(self):
        """Both ports take turns. Answers whether one of them sent something."""
        self.put(self.own, self.layer.turn())
        self.hear(self.fabric.ask("pump %s %d" % (self.beside, self.chance.randrange(1, 3))))
        return any(self.wires.values())

    def deliver(self):
        """What is on the wires comes to the other end."""
        chars, self.wires[self.own] = self.wires[self.own], []
        if chars:
            self.hear(self.fabric.ask("sent %s %s" % (self.own, " ".join(chars)))[1:])
        chars, self.wires[self.beside] = self.wires[self.beside], []
        while chars:
            count = self.chance.randrange(1, len(chars) + 1)
            self.fabric.log("got %s %s" % (self.own, " ".join(chars[:count])))
            for char in chars[:count]:
                self.got(char)
            chars = chars[count:]

    def got(self, char):
        held, freed, replies = self.layer.got(char)
        for packet in held:
            self.fabric.log("hold %s %s" % (self.own, packet))
        for packet in freed:
            self.fabric.log("free %s %s" % (self.own, packet))
        for chars in replies:
            self.put(self.own, chars)

    def late(self):
        """Nothing moves: both have waited too long, the device if it waits."""
        if self.layer.waits():
            self.fabric.log("fire " + self.own)
            self.layer.time_out()
        self.fabric.tell("timeout " + self.beside)


def by_priority(sent):
    return sorted(sent, key=prio_of)


def main(words):
    live, count, faults, seed = words + ["rio_live", "100", "4", "1"][len(words):]
    count, chance = int(count), random.Random(int(seed))
    fabric = Fabric(live, SET_UP)
    joint = Joint(fabric, "D.0", "S.0", float(faults), chance)
    sent = {node: [(chance.randrange(4), number.to_bytes(4, "big")) for number in range(count)] for node in "DB"}
    forms = {"B": [link_form(prio, 15, 1, 2, text) for prio, text in sent["D"]],
             "D": [link_form(prio, 15, 2, 1, text) for prio, text in sent["B"]]}
    to_send, left = list(forms["B"]), {"D": [], "B": []}
    for _ in range(100 * count):
        if to_send and joint.layer.offer(to_send[0]):
            fabric.log("take D " + to_send.pop(0))
        if sent["B"] and fabric.send("B", sent["B"][0][0], 1, sent["B"][0][1]):
            del sent["B"][0]
        moved = joint.turns()
        joint.deliver()
        packet = joint.layer.take()
        if packet is not None:
            left["D"].append(packet)
            fabric.log("leave D " + packet)
        fabric.tell("run 2")
        left["B"] += fabric.collect("B")
        if len(left["B"]) == len(left["D"]) == count and fabric.freed == 6 * count:
            break
        if not moved:
            joint.late()
    fabric.live.end()
    fabric.log("end")
    good = all(by_priority(left[node]) == by_priority(forms[node]) for node in "DB")
    print("%d packets each way%s" % (count, "" if good else ": NOT as they were sent"), file=sys.stderr)
    return 0 if good else 1


if __name__ == "__main__":
    sys.exit(main(sys.argv[1:]))
