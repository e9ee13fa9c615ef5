"""Logs of both ends that rio_port writes: those of benches with faults are lawful by rio_follow, that of a device that
acknowledges a packet before it came is not, and each is the one that examples/live/log.py writes of the same lines.

usage: logs.py PROGRAM FOLLOW    PROGRAM: rio_port, FOLLOW: rio_follow. The status is 0 if all is as wanted.
"""
import pathlib
import subprocess
import sys
import tempfile

from streams import equal

LIVE = pathlib.Path(__file__).parents[2] / "examples" / "live"
PACKETS = 100
EARLY = ["send 0 15 1 2 cafe0001", "clock" + 10 * " kbc", "clock k1c d00 dff d16"]
# Its log has 5 lines of set-up, the packet, 2 pieces each way of 2 lines each, the acknowledgement, and then the device holds.
HOLD = 5 + 1 + 8 + 2 + 1
TRAFFIC = ["send 0 15 1 2 cafe0001", "turn 1", "got k1c d00 dff d16", "timeout", "turn 1", "take"]
LINES = (
    ("acknowledged before it came", EARLY, f"unlawful {HOLD} 24"),
    ("a time-out that was asked for", TRAFFIC, "lawful 4"),
    ("a reset ends it", ["turn 0", "got", "reset", "got k7c"], "lawful 0"),
)


def judged(follow, log):
    """What is said of a log."""
    done = subprocess.run([follow], stdin=open(log), capture_output=True, timeout=60, check=False)
    return done.stdout.decode().strip()


def logged(words, log):
    """A program that is the port, and writes a log beside it."""
    file = log.with_suffix(".sh")
    file.write_text(f"#!/bin/sh\nexec {words} \"$@\" 2>'{log}'\n")
    file.chmod(0o755)
    return file


def loggers(program, folder):
    """The port that writes a log by itself, and the one that log.py writes a log of, each with its log."""
    own, other = pathlib.Path(folder) / "own", pathlib.Path(folder) / "other"
    program = pathlib.Path(program).resolve()
    before = f"'{sys.executable}' '{LIVE / 'log.py'}' A B '{program}'"
    return (logged(f"'{program}' --log A B", own), own), (logged(before, other), other)


def bench(name, port, seed):
    """A bench runs to its end beside the port."""
    words = [sys.executable, LIVE / name, port, str(PACKETS), "6", str(seed)]
    subprocess.run(words, stdout=subprocess.DEVNULL, stderr=subprocess.DEVNULL, timeout=120, check=True)


def given(port, lines):
    """The port is given these lines."""
    subprocess.run([port], input="".join(line + "\n" for line in lines).encode(), stdout=subprocess.DEVNULL, timeout=60,
                   check=True)


def judge(follow, ports, said, wanted, run):
    """What is run beside each port leaves the log that is wanted, and the same one."""
    for port, log in ports:
        run(port)
        equal(said, judged(follow, log), wanted)
    (_, own), (_, other) = ports
    equal(f"{said}: the log", own.read_text(), other.read_text())


def main(program, follow):
    with tempfile.TemporaryDirectory() as folder:
        ports = loggers(program, folder)
        for name in ("bench.py", "clocked.py"):
            for seed in (1, 2, 3):
                judge(follow, ports, f"{name}, seed {seed}", f"lawful {8 * PACKETS}",
                      lambda port, name=name, seed=seed: bench(name, port, seed))
        for said, lines, wanted in LINES:
            judge(follow, ports, said, wanted, lambda port, lines=lines: given(port, lines))


if __name__ == "__main__":
    main(*sys.argv[1:])
