"""Lines of each kind over pipes, with a time limit: each answer must come before the next line is written.

usage: lines.py PROGRAM [lines]    lines: no words at the start

The status is 0 if all is as wanted. The characters and packets are those of the worked rows of the trace of one packet,
which the standard's CRCs give.
"""
import sys

from streams import MOST_LINE, byte_by_byte, ended, equal, gone, started
from two_ports import Port

PACKET = "000f0201cafe0001a9bb0000"
BURST = "k7c d80 df8 d1f d00 d0f d02 d01 dca dfe d00 d01 da9 dbb d00 d00 k7c d80 dfa d18"
ACCEPTED = "k1c d00 dff d16"
AT_REST = ["output ok", "input ok", "outstanding 0", "waiting no"]


def one_packet(program):
    """A packet goes from one port to another, and is acknowledged."""
    a, b = Port(program, 4), Port(program, 30)
    equal("send", a.ask("send 0 15 1 2 cafe0001"), ["queued " + PACKET])
    equal("waiting", a.ask("state"), AT_REST[:3] + ["waiting yes"])
    equal("turn", a.ask("turn 3"), ["sent " + BURST])
    equal("outstanding", a.ask("state"), AT_REST[:2] + ["outstanding 1", "waiting no"])
    equal("got", b.ask("got " + BURST), ["hold " + PACKET, "sent " + ACCEPTED])
    equal("accepted", a.ask("got " + ACCEPTED), ["free " + PACKET])
    equal("take", b.ask("take"), ["taken " + PACKET])
    equal("nothing held", b.ask("take"), ["empty"])
    equal("a", a.ask("state"), AT_REST)
    equal("b", b.ask("state"), AT_REST)
    equal("ends", [a.end(), b.end()], [0, 0])


def room(program):
    """A priority has 16 packets to be sent, and the next priority has its own."""
    port = Port(program, 8)
    for _ in range(16):
        equal("room", len(port.ask("send 1 15 1 2 -")), 1)
    equal("full", port.ask("send 1 15 1 2 -"), ["full"])
    equal("other", port.ask("send 2 15 1 2 -")[0].split()[0], "queued")
    equal("turns", len(port.ask("turn 100000")), 17)
    port.end()


def ids_of_16_bits(program):
    """Packets with IDs of 16 bits, which have the room that those of 8 bits leave, up to the longest."""
    port = Port(program, 8)
    equal("16 bits", port.ask("send16 0 15 4097 8194 -"), ["queued 001f2002100125cf"])
    equal("the least", port.ask("send16 0 15 0 0 -")[0][:19], "queued 001f00000000")
    equal("the greatest", port.ask("send16 3 15 65535 65535 -")[0][:19], "queued 00dfffffffff")
    equal("the longest", len(port.ask("send16 0 9 256 255 " + "5a" * 266)[0]), len("queued ") + 2 * 276)
    for _ in range(13):
        equal("room", len(port.ask("send 0 15 1 2 -")), 1)
    equal("full", port.ask("send16 0 15 1 2 -"), ["full"])
    port.end()


def time_out(program):
    """A port whose time-out comes asks, and a port that is asked answers which ackID it expects."""
    a, b = Port(program, 8), Port(program, 8)
    equal("time-out", a.ask("timeout"), [])
    equal("asks", a.ask("state"), ["output error-stopped"] + AT_REST[1:])
    equal("link-request", a.ask("turn 1"), ["sent k1c d80 dfc d87"])
    equal("link-response", b.ask("got k1c d80 dfc d87"), ["sent k1c dc0 d87 d13"])
    equal("answered", a.ask("got k1c dc0 d87 d13"), [])
    equal("good again", a.ask("state"), AT_REST)
    a.end(), b.end()


def clocks(program):
    """In each clock a character comes and one goes, and what is begun goes on to its end."""
    a, b = Port(program, 8), Port(program, 8)
    idle = "given" + 20 * " kbc"
    equal("idle", a.ask("clock" + 20 * " kbc"), [idle])
    equal("no clock", a.ask("clock"), ["given"])
    a.ask("send 0 15 1 2 cafe0001")
    equal("burst", a.ask("clock" + 20 * " kbc"), ["given " + BURST])
    equal("one clock", b.ask("clock k7c"), ["given kbc"])
    equal("held", b.ask("clock " + BURST[4:] + " kbc"),
          ["hold " + PACKET, "given" + 18 * " kbc" + " " + ACCEPTED[:7]])
    equal("on", b.ask("clock kbc"), ["given " + ACCEPTED[8:11]])
    equal("a turn leaves what waits", b.ask("turn 1"), [])
    equal("the end", b.ask("clock kbc kbc"), ["given " + ACCEPTED[12:] + " kbc"])
    equal("freed", a.ask("clock " + ACCEPTED + " kbc"), ["free " + PACKET, "given" + 5 * " kbc"])
    equal("at rest", a.ask("state"), AT_REST)
    a.ask("send 0 15 1 2 cafe0001")
    equal("an answer within a burst", a.ask("clock kbc inv" + 18 * " kbc"),
          ["given " + BURST.replace("d00 d0f", "d08 d0f")])
    equal("comes behind it", a.ask("clock kbc kbc kbc kbc kbc"), ["given k1c d40 d2f d0e kbc"])
    a.end(), b.end()


def taken_at_once(program):
    """A packet that is held is given out at once, so that 4 buffers hold any number of them."""
    port = Port(program, 4, "--take")
    for ack in range(9):
        burst = BURST.replace("d00 d0f", "d%02x d0f" % (8 * ack))
        word = "clock" if ack % 2 else "got"
        equal("taken", port.ask(word + " " + burst)[:2], ["hold " + PACKET, "taken " + PACKET])
    equal("nothing is held", port.ask("take"), ["empty"])
    equal("nothing for a symbol", port.ask("got " + ACCEPTED), [])
    port.end()


def timed_by_clocks(program):
    """A time-out fires at the end of the third clock without an answer, and not while anything is on the way."""
    port = Port(program, 8, "--timeout", 3)
    equal("nothing to wait for", port.ask("clock" + 50 * " kbc"), ["given" + 50 * " kbc"])
    port.ask("send 0 15 1 2 cafe0001")
    equal("the first clock", port.ask("clock" + 20 * " kbc"), ["given " + BURST])
    equal("the second clock", port.ask("clock kbc"), ["given kbc"])
    equal("what is no clock", port.ask("turn 9") + port.ask("take") + port.ask("got kbc"), ["empty"])
    equal("a symbol comes in", port.ask("clock k1c"), ["given kbc"])
    equal("and breaks off, which has an answer", port.ask("clock kbc kbc kbc kbc"), ["given k1c d40 d2f d0e"])
    equal("of which the last clock is the first", port.ask("clock kbc"), ["given kbc"])
    equal("the third", port.ask("clock kbc"), ["fire", "given kbc"])
    equal("asks", port.ask("clock kbc kbc kbc kbc"), ["given k1c d80 dfc d87"])
    equal("asks again", port.ask("clock kbc kbc"), ["fire", "given kbc kbc"])
    equal("and again", port.ask("clock kbc kbc kbc kbc"), ["given k1c d80 dfc d87"])
    equal("new", port.ask("reset") + port.ask("clock" + 9 * " kbc"), ["given" + 9 * " kbc"])
    port.end()


def reset(program):
    """A new port forgets packets, states and what waits, and keeps its buffers."""
    port = Port(program, 4)
    port.ask("got " + BURST)
    port.ask("send 0 15 1 2 cafe0001")
    port.ask("clock kbc kbc inv")
    equal("reset", port.ask("reset"), [])
    equal("new", port.ask("state"), AT_REST)
    equal("nothing held", port.ask("take"), ["empty"])
    equal("nothing waits", port.ask("clock kbc kbc"), ["given kbc kbc"])
    equal("held again", port.ask("got " + BURST)[0], "hold " + PACKET)
    equal("buffers", port.ask("got " + BURST.replace("d00 d0f", "d08 d0f"))[0][:8], "sent k1c")
    port.end()


BYTES = "9 word 6 must be bytes of two lower-case hexadecimal digits each, or a hyphen for none"
CHARACTER = "must be d or k and two lower-case hexadecimal digits, or inv"
LENGTH = ("10 the packet has a length that is not allowed: its data is an even number of bytes, at most 268 (266 after "
          "send16), and of type 8 it is 6 and up to 8 times 8 bytes")
# Lines behind what is said of them: the sentences are those of `rio replay`, and the reasons those of a script.
REFUSED = {
    "1 no kind of line begins with this word": ["", "foo", "TAKE", "send8 0 15 1 2 -", "SEND16 0 15 1 2 -", "# take"],
    "1 this kind of line has 0 words after the first": ["take 1", "state ", "timeout 1", "reset 1"],
    "1 this kind of line has 1 words after the first": ["turn", "turn 1 1", "turn x 1"],
    "1 this kind of line has 5 words after the first": [
        "send", "send 1 2 3", "send 9 15 1 2", "send 0 15 1 2 00 00", "send16", "send16 0 15 1 2"],
    "1 the line begins with a space": [" take"],
    "1 the line has a tab, and one space separates words": ["take\t", "\ttake"],
    "1 the line ends with a carriage return": ["take\r"],
    "1 the line has bytes of 0, as UTF-16 has, and only plain ASCII is read": ["t\0a\0k\0e\0"],
    "2 the line ends with a carriage return": ["turn 1\r"],
    "2 word 2 must be a number from 1 to 100000 in decimal": ["turn 0", "turn 100001", "turn x", "turn 01", "turn "],
    "2 word 2 must be a number from 0 to 3 in decimal": ["send 4 15 1 2 -", "send16 4 16 1 2 0"],
    "2 word 3 must be a number from 0 to 15 in decimal": ["send 0 16 1 2 -", "send16 0 16 1 2 -"],
    "2 word 4 must be a number from 0 to 255 in decimal": ["send 0 0 256 2 -", "send 0 0 256 2 0"],
    "2 word 5 must be a number from 0 to 255 in decimal": ["send 0 0 1 256 -"],
    "2 word 4 must be a number from 0 to 65535 in decimal": ["send16 0 0 65536 2 -", "send16 0 0 01 2 -"],
    "2 word 5 must be a number from 0 to 65535 in decimal": ["send16 0 0 1 65536 -"],
    "9 word 2 " + CHARACTER: ["got k1", "got kBC", "got ", "got  d00", "clock k1", "clock "],
    "9 word 3 " + CHARACTER: ["got k1c  d00", "got d00 ", "got d00 x x"],
    "9 word 402 " + CHARACTER: ["got" + 400 * " d00" + " d0"],
    BYTES: ["send 0 15 1 2 ", "send 0 15 1 2 0", "send 0 15 1 2 0G", "send16 0 15 1 2 0"],
    LENGTH: ["send 0 15 1 2 00", "send 0 15 1 2 " + "00" * 270, "send16 0 15 1 2 00", "send16 0 15 1 2 " + "00" * 268],
}


def refused(program):
    """Refused lines change nothing."""
    port = Port(program, 8)
    port.ask("got " + BURST[:15])
    for reason, lines in REFUSED.items():
        for line in lines:
            equal(line[:80], port.ask(line), ["refused " + reason])
    equal("as before", port.ask("got" + BURST[15:]), ["hold " + PACKET, "sent " + ACCEPTED])
    port.end()


def ends(program):
    """How it ends, and that the last line needs no line feed."""
    for text, wanted in [(b"", b""), (b"take", b"empty\nok\n"), (b"take\ntake", 2 * b"empty\nok\n")]:
        ended(program, text, wanted, 0)
    for words in [["3"], ["31"], ["x"], ["8", "8"], [""], ["08"]]:
        ended(program, b"take\n", b"", 2, *words)


def words_at_the_start(program):
    """Words that say how the port is made, and such that do not."""
    for words in [["--take"], ["30", "--take"], ["--timeout", "1"], ["--take", "--timeout", "1000000"],
                  ["4", "--take", "--timeout", "9"]]:
        ended(program, b"take\n", b"empty\nok\n", 0, *words)
    for words in [["--take", "8"], ["--take", "--take"], ["--timeout"], ["--timeout", "0"], ["--timeout", "1000001"],
                  ["--timeout", "3", "--take"], ["8", "--timeout", "3", "4"], ["3", "--take"], ["8", "--takes"]]:
        ended(program, b"take\n", b"", 2, *words)


def long_lines(program):
    """A line of the most bytes is answered, and one more ends it."""
    text = b"got" + b" d00" * 1048575 + b"\n"
    equal("long", len(text), MOST_LINE)
    process = started(program)
    written = process.communicate(text + b"take\n" + b"x" * (MOST_LINE + 1) + b"\n")[0]
    equal("long line", written[-12:], b"ok\nempty\nok\n")
    equal("status", process.returncode, 8)


def bytes_and_readers(program):
    byte_by_byte(program, b"take", b"empty\nok\n")
    gone(program, b"take\n")


LINES = (one_packet, room, ids_of_16_bits, time_out, clocks, reset, refused, ends, long_lines, bytes_and_readers)
WORDS = (taken_at_once, timed_by_clocks, words_at_the_start)

if __name__ == "__main__":
    for case in LINES + (WORDS if sys.argv[2:] != ["lines"] else ()):
        case(sys.argv[1])
