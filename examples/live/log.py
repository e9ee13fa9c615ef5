#!/usr/bin/env python3
"""Stands before a program that is a port, passes lines and answers on, and writes a log of both ends on standard error, ready
for rio_follow: the log that rio_port --log DEVICE PORT writes by itself.

usage: log.py DEVICE PORT PROGRAM [WORD ..] < LINES 2> LOG

DEVICE and PORT are names for both ends, PROGRAM reads and writes the lines of rio_port, and WORDs are its words. The log is
made of the lines and their answers alone:

- what comes from the device is sent and got at once, in pieces in which no packet is whole: the port knows a packet of the
  device once it holds it, and then the device had it to be sent; the device frees it once it got the acceptance;
- a packet of the port that is freed was held by the device, and has left it;
- what the port sends or gives is got at once, without idles;
- a line `reset` ends the log, since both ends begin anew.

What the device does besides, the port cannot see, and the log has nothing of it: what it holds and takes, and its time-outs.
"""
import sys

from two_ports import Port

PIECE = 8
IDLE = "kbc"


def pieces(chars):
    return [" ".join(chars[at : at + PIECE]) for at in range(0, len(chars), PIECE)]


class Log:
    """The lines of a log of a device and a port by their names."""

    def __init__(self, device, port, buffers):
        self.device, self.port, self.ended = device, port, False
        self.held, self.symbol = [], []
        self.say("endpoint %s 1" % device, "endpoint %s 2" % port, "link %s.0 %s.0" % (device, port))
        self.say("buffers %s.0 %s" % (port, buffers), "---")

    def say(self, *lines):
        if not self.ended:
            sys.stderr.write("".join(line + "\n" for line in lines))

    def end(self):
        self.say("end")
        self.ended = True

    def passes(self, sender, getter, chars):
        """Characters go from one end to the other, in pieces."""
        for piece in pieces(chars):
            self.say("sent %s.0 %s" % (sender, piece), "got %s.0 %s" % (getter, piece))

    def accepts(self, chars):
        """The port sent this: the device frees a packet for each packet-accepted, whose stype0 is 0."""
        for char in chars:
            self.symbol = [char] if char == "k1c" else self.symbol + [char]
            if len(self.symbol) == 4 and self.symbol[0] == "k1c" and self.symbol[1] < "d20":
                self.say("free %s.0 %s" % (self.device, self.held.pop(0)))

    def sends(self, chars):
        """The port sends this, without the idles between its bursts."""
        chars = [char for char in chars if char != IDLE]
        self.passes(self.port, self.device, chars)
        self.accepts(chars)

    def told(self, word, rest):
        """What a line of an answer says."""
        device, port, packet = self.device, self.port, " ".join(rest)
        if word == "hold":
            self.say("take %s %s" % (device, packet), "hold %s.0 %s" % (port, packet))
            self.held.append(packet)
        elif word == "free":
            self.say("hold %s.0 %s" % (device, packet), "leave %s %s" % (device, packet), "free %s.0 %s" % (port, packet))
        elif word in ("queued", "taken"):
            self.say("%s %s %s" % ("take" if word == "queued" else "leave", port, packet))
        elif word in ("sent", "given"):
            self.sends(rest)
        elif word == "fire":
            self.say("fire %s.0" % port)

    def line(self, line, answer):
        """A line and its answer: nothing has changed if it is refused."""
        if any(said.startswith("refused") for said in answer):
            return
        word, *rest = line.split(" ")
        if word in ("got", "clock"):
            self.passes(self.device, self.port, rest)
        elif word == "timeout":
            self.say("fire %s.0" % self.port)
        for said in answer:
            first, *others = said.split(" ")
            self.told(first, others)
        if word == "reset":
            self.end()


def main(words):
    device, port, program, *settings = words
    process = Port(program, *settings)
    log = Log(device, port, settings[0] if settings and settings[0].isdigit() else 8)
    for line in sys.stdin:
        answer = process.ask(line.rstrip("\n"))
        sys.stdout.write("".join(said + "\n" for said in answer) + "ok\n")
        sys.stdout.flush()
        log.line(line.rstrip("\n"), answer)
        sys.stderr.flush()
    log.end()
    return process.end()


if __name__ == "__main__":
    if len(sys.argv) < 4:
        sys.exit("usage: log.py DEVICE PORT PROGRAM [WORD ..] < LINES 2> LOG")
    sys.exit(main(sys.argv[1:]))
