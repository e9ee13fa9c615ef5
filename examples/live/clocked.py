#!/usr/bin/env python3
"""The bench of bench.py by clocks: in each clock the device and the port give each other one character.

usage: clocked.py [PROGRAM [PACKETS [FAULTS [SEED]]]] > LOG    as bench.py

A line has a run of clocks, so that what one end gives comes to the other end in the run behind. With runs of one clock it
is what a simulator does. The log has no idles. A burst of the port stands in it once it was given whole. The port gives
out what it holds, and has its time-outs, by itself: after more clocks than some runs, so that nothing is on its way.
"""
import sys

from bench import Bench, main

IDLE = "kbc"
RUN = 24
PATIENCE = 5 * RUN


def is_whole(burst):
    """Whether these characters are a symbol, or a packet between its two symbols."""
    if burst[0] == "k7c":
        return len(burst) > 4 and burst[-4] == "k7c"
    return len(burst) == 4


class Clocked(Bench):
    """The bench, with clocks in place of turns."""

    PORT_WORDS = ("--take", "--timeout", PATIENCE)

    def __init__(self, *words):
        super().__init__(*words)
        self.begun, self.still = [], 0

    def given(self, chars):
        """What the port gave: each burst comes to the device once it is whole. Answers whether there is anything."""
        for char in chars:
            if self.begun or char != IDLE:
                self.begun.append(char)
            if self.begun and is_whole(self.begun):
                burst, self.begun = self.begun, []
                self.put("B", burst)
        came, self.wires["B"] = self.wires["B"], []
        self.deliver_to_device(came)
        return bool(self.begun or came)

    def clocks(self):
        """A run of clocks. Answers whether anything but idles went either way."""
        if not self.wires["A"]:
            self.put("A", self.device.turn())
        chars, self.wires["A"] = self.wires["A"][:RUN], self.wires["A"][RUN:]
        if chars:
            self.log("got B.0 " + " ".join(chars))
        answer = self.ask("clock " + " ".join(chars + [IDLE] * (RUN - len(chars))))
        return self.given(answer[-1].split()[1:]) or bool(chars)

    def round(self):
        """A run of clocks, and what the device holds leaves. It has a time-out if nothing moves for some runs."""
        self.still = 0 if self.clocks() else self.still + 1
        self.take()
        if self.still == 3:
            self.still = 0
            self.late_device()


if __name__ == "__main__":
    sys.exit(main(sys.argv[1:], Clocked))
