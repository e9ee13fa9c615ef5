#!/usr/bin/env python3
"""A device of one's own as an endpoint of a fabric, by its packets.

usage: in_fabric.py [LIVE [PORT [PACKETS [FAULTS [SEED]]]]] > TRACE

The link of the device goes to rio_port, the other end of it. What the port takes from the device is sent by the endpoint A
of a fabric of rio_live, which stands for the device, and what leaves at A is sent to the device. So the device meets all
that a fabric does to packets: routes, other hosts, switches that are full. Requests that others send to A are answered by
the registers of A.

LIVE and PORT are rio_live and rio_port, unless they are given. PACKETS go each way between the device and B, 100 unless it
is said, and FAULTS of 100 bursts of the device's link get a fault. The trace of the fabric comes on standard output, and
`rio check` reads it. The status is 0 if all packets came that were sent, in the order of their priority.
"""
import random
import sys

from bench import Bench
from device import crc16, link_form, prio_of
from two_ports import Port, packets

SET_UP = """endpoint A 1
endpoint B 2
switch S 4
switch T 4
link A.0 S.0
link S.1 T.1
link B.0 T.0
route S 1 0
route S 2 1
route T 1 1
route T 2 0
"""


def fields(packet):
    """Priority, format type, destination, source and contents of a link form with 8-bit IDs and one CRC."""
    text = bytes.fromhex(packet)
    form = text if crc16(text[:-2]) == int.from_bytes(text[-2:], "big") else text[:-2]
    return text[1] >> 6, text[1] & 15, text[2], text[3], form[4:-2].hex() or "-"


class Fabric:
    """A fabric of rio_live, whose answers are its trace."""

    def __init__(self, program):
        self.live = Port(program)
        for line in SET_UP.splitlines():
            self.ask(line)

    def ask(self, line):
        answer = self.live.ask(line)
        for said in answer:
            if said.startswith("refused "):
                raise ValueError(f"{line}: {said}")
            print(said)
        return answer

    def send(self, node, packet):
        """A node sends a packet. Answers whether there was room."""
        prio, ftype, dest, _, contents = fields(packet)
        return "full" not in self.ask("send %s %d %d %d %s" % (node, prio, ftype, dest, contents))

    def collect(self, node):
        """The packets that leave at a node."""
        return [line.split()[2] for line in self.ask("collect " + node) if line.startswith("leave ")]


class Node(Bench):
    """The device and its port, beside the endpoint A that stands for both."""

    def __init__(self, fabric, program, faults, chance):
        super().__init__(program, faults, chance)
        self.fabric, self.inward, self.outward = fabric, [], []

    def log(self, line):
        """What happens on the device's own link is not told."""

    def ask(self, line):
        answer = super().ask(line)
        self.inward += packets(answer, "taken")
        return answer

    def exchange(self):
        """Packets of the device go into the fabric, and those that left come to it, as far as there is room."""
        while self.inward and self.fabric.send("A", self.inward[0]):
            del self.inward[0]
        self.outward += self.fabric.collect("A")
        while self.outward:
            prio, ftype, dest, source, contents = fields(self.outward[0])
            if self.ask("send %d %d %d %d %s" % (prio, ftype, source, dest, contents)) == ["full"]:
                return
            del self.outward[0]


def by_priority(sent):
    return sorted(sent, key=prio_of)


def main(words):
    live, port, count, faults, seed = words + ["rio_live", "rio_port", "100", "4", "1"][len(words):]
    count, chance = int(count), random.Random(int(seed))
    sys.stdout.write(SET_UP + "---\n")
    fabric = Fabric(live)
    node = Node(fabric, port, float(faults), chance)
    forms = [
        [link_form(chance.randrange(4), 15, source, dest, number.to_bytes(4, "big")) for number in range(count)]
        for source, dest in ((1, 2), (2, 1))
    ]
    to_send = [forms[0][:], forms[1][:]]
    left = []
    for _ in range(100 * count):
        if to_send[0] and node.device.offer(to_send[0][0]):
            del to_send[0][0]
        if to_send[1] and fabric.send("B", to_send[1][0]):
            del to_send[1][0]
        node.round()
        node.exchange()
        fabric.ask("run 2")
        left += fabric.collect("B")
        if len(left) == len(node.left["A"]) == count:
            break
    node.port.end()
    fabric.live.end()
    print("end")
    good = by_priority(left) == by_priority(forms[0]) and by_priority(node.left["A"]) == by_priority(forms[1])
    print("%d packets each way%s" % (count, "" if good else ": NOT as they were sent"), file=sys.stderr)
    return 0 if good else 1


if __name__ == "__main__":
    sys.exit(main(sys.argv[1:]))
