"""How fast a program answers over pipes.

usage: speed.py RIO_PORT RIO_LIVE    Each figure is the best of five runs.
"""
import os
import subprocess
import sys
import time

COUNT = 100000
LONG = b"got" + b" d00" * 1048575 + b"\n"
BURST = b"got k7c d80 df8 d1f d00 d0f d02 d01 dca dfe d00 d01 da9 dbb d00 d00 k7c d80 dfa d18\n"
SETUP = [b"endpoint A 1\n", b"endpoint B 2\n", b"link A.0 B.0\n"]


def started(program):
    """A program, and the ends of its two pipes."""
    process = subprocess.Popen([program], stdin=subprocess.PIPE, stdout=subprocess.PIPE)
    return process, process.stdin.fileno(), process.stdout.fileno()


def exchange(ends, line):
    """Writes a line, and reads up to the last line of its answer."""
    os.write(ends[0], line)
    answer = os.read(ends[1], 65536)
    while not answer.endswith(b"ok\n"):
        answer += os.read(ends[1], 65536)


def seconds(program, before, lines, count):
    """How long so many exchanges of these lines in turn take."""
    process, *ends = started(program)
    for line in before:
        exchange(ends, line)
    begin = time.perf_counter()
    for _ in range(count):
        for line in lines:
            exchange(ends, line)
    taken = time.perf_counter() - begin
    process.communicate()
    return taken


def long_line(program):
    """How long one line of 4 MB takes, whose writer does not wait."""
    process, *_ = started(program)
    begin = time.perf_counter()
    process.communicate(LONG)
    return time.perf_counter() - begin


def main(port, live):
    def best(measure):
        return min(measure() for _ in range(5))

    for what, program, before, lines in [
        ("rio_port: turn 1", port, [], [b"turn 1\n"]),
        ("rio_port: a packet of 20 characters, and take", port, [], [BURST, b"take\n"]),
        ("rio_live: collect A", live, SETUP, [b"collect A\n"]),
        ("rio_live: pump A.0 1", live, SETUP, [b"pump A.0 1\n"]),
    ]:
        taken = best(lambda: seconds(program, before, lines, COUNT // len(lines)))
        print("%s: %d exchanges a second" % (what, COUNT / taken))
    print("rio_port: a line of %d bytes: %d MB a second" % (len(LONG), len(LONG) / best(lambda: long_line(port)) / 1e6))


if __name__ == "__main__":
    main(*sys.argv[1:])
