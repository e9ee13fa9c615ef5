#!/usr/bin/env python3
"""A switch of one's own in a fabric, by its characters.

usage: switch.py [LIVE [PACKETS [FAULTS [SEED]]]] > LOG

The switch W of a fabric of rio_live is a device outside: the ports A.0, B.0 and S.0 of the fabric stand beside three ports of
it. The switch has the small link layer of device.py at each port, and a route table. It answers no request of its registers.

LIVE is rio_live, unless it is given. Each of the endpoints A, B, C and D sends PACKETS to others, 50 unless it is said, and
FAULTS of 100 bursts of each link of the switch get a fault. The log comes on standard output, and `rio check` reads it. The
status is 0 if all packets came that were sent, those of one sender and one priority in order.
"""
import random
import sys

from device import link_form, prio_of
from external import Fabric, Joint

SET_UP = """endpoint A 1
endpoint B 2
endpoint C 3
endpoint D 4
switch W 4
switch S 4
external W.0 A.0
external W.1 B.0
external W.2 S.0
link C.0 S.1
link D.0 S.2
route W 1 0
route W 2 1
route W 3 2
route W 4 2
route S 1 0
route S 2 0
route S 3 1
route S 4 2
"""
NODES = "ABCD"


class Switch:
    """A switch outside, whose ports are numbered from 0: a link layer at each, and a port for each destination."""

    def __init__(self, fabric, name, set_up, faults, chance):
        words = [line.split() for line in set_up.splitlines()]
        self.fabric, self.name = fabric, name
        self.routes = {int(line[2]): int(line[3]) for line in words if line[:2] == ["route", name]}
        ends = [line[1:] for line in words if line[0] == "external"]
        self.joints = [Joint(fabric, own, beside, faults, chance) for own, beside in ends]

    def move(self, joint):
        """The next packet that a port holds goes to the port of its route, if there is room. Answers whether it went."""
        layer = joint.layer
        packet = max(layer.held, key=prio_of, default=None)
        if packet is None:
            return False
        out = self.joints[self.routes[int(packet[4:6], 16)]]
        if not out.layer.offer(packet):
            return False
        layer.held.remove(packet)
        self.fabric.log("move %s %s %s" % (joint.own, out.own, packet))
        return True

    def round(self):
        """Each port takes a turn, what is on the wires is delivered, and packets move. Answers whether anything did."""
        moved = [joint.turns() for joint in self.joints]
        for joint in self.joints:
            joint.deliver()
            while self.move(joint):
                moved.append(True)
        return any(moved)

    def late(self):
        for joint in self.joints:
            joint.late()


def packets(chance, count):
    """What each endpoint sends: priority, destination and contents."""
    ids = range(1, len(NODES) + 1)
    return {
        own: [(chance.randrange(4), chance.choice([other for other in ids if other != own]), number.to_bytes(4, "big"))
              for number in range(count)]
        for own in ids
    }


def flows(forms):
    """Packets by their sender, destination and priority, each flow in order."""
    told = {}
    for form in forms:
        told.setdefault((form[4:8], prio_of(form)), []).append(form)
    return told


def main(words):
    live, count, faults, seed = words + ["rio_live", "50", "4", "1"][len(words):]
    count, chance = int(count), random.Random(int(seed))
    fabric = Fabric(live, SET_UP)
    switch = Switch(fabric, "W", SET_UP, float(faults), chance)
    to_send, left = packets(chance, count), []
    wanted = flows(link_form(prio, 15, own, dest, text) for own in to_send for prio, dest, text in to_send[own])
    for _ in range(200 * count):
        for own, name in enumerate(NODES, 1):
            if to_send[own] and fabric.send(name, *to_send[own][0]):
                del to_send[own][0]
        moved = switch.round()
        fabric.tell("run 2")
        for name in NODES:
            left += fabric.collect(name)
        if len(left) == len(NODES) * count and not any(joint.layer.waits() for joint in switch.joints):
            break
        if not moved:
            switch.late()
    fabric.live.end()
    fabric.log("end")
    good = flows(left) == wanted
    print("%d packets%s" % (len(left), "" if good else ": NOT as they were sent"), file=sys.stderr)
    return 0 if good else 1


if __name__ == "__main__":
    sys.exit(main(sys.argv[1:]))
