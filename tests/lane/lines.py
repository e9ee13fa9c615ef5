#!/usr/bin/env python3
"""Tries rio_lane with the bursts of all stored traces. The status is 0 if all is as it should be.

- Each burst is written as the groups that the equations of the encoder give, with an idle before and after it, and is
  read back as it was, from each of the two disparities on.
- With each single bit of the bursts of three traces wrong, with idles between them and without, what `rio decode` reads
  of it has no good event that it does not read of the bursts as they were sent, each at its place.

usage: tests/lane/lines.py RIO_LANE RIO
"""
import subprocess
import sys
from pathlib import Path

from model import hear, send, with_wrong_bit

TOP = Path(__file__).resolve().parent.parent.parent
TRACES = ["first", "retry", "read_a_switch"]
IDLE = ["kbc"]
# four groups of no character: a lane in sync loses it, and the comma of the next line brings it again
LOST = " ".join(["0000000000"] * 4)


def run(command, lines):
    """The lines that a program writes of these."""
    text = "".join(line + "\n" for line in lines)
    ran = subprocess.run(command, input=text.encode(), stdout=subprocess.PIPE, stderr=subprocess.PIPE, check=True)
    return ran.stdout.decode().splitlines()


def bursts(name):
    """The characters of each burst of a stored trace."""
    lines = (TOP / f"examples/{name}.trace").read_text().splitlines()
    return [line.split()[2:] for line in lines if line.startswith("sent ")]


def round_trips(lane):
    """How many bursts came back as they were sent; and what did not."""
    count, faults = 0, []
    for trace in sorted(path.stem for path in (TOP / "examples").glob("*.trace")):
        for more in ([], [["d00"]]):
            sent = more + bursts(trace)
            groups, positive = [], False
            for burst in sent:
                coded, positive = send(IDLE + burst + IDLE, positive)
                groups.append(" ".join(coded))
            written = run([lane, "groups"], [" ".join(burst) for burst in sent])
            heard = run([lane, "chars"], written)
            faults += [f"{trace}: groups"] * (written != groups)
            faults += [f"{trace}: characters"] * (heard != [" ".join(IDLE + burst + IDLE) for burst in sent])
            count += len(sent)
    return count, faults


def cases(name):
    """Each single wrong bit of each burst of a trace, and of all its bursts with no idle between them: the characters,
    and the groups with it."""
    sent = bursts(name)
    for chars in [IDLE + burst + IDLE for burst in sent] + [IDLE + sum(sent, []) + IDLE]:
        for positive in (False, True):
            groups, _ = send(chars, positive)
            for place in range(1, len(chars) - 1):
                for bit in range(10):
                    yield chars, positive, with_wrong_bit(groups, place, bit)


def events_by_line(rio, lines):
    """The good events that `rio decode` reads of each line, by their places in it."""
    begins, count = [], 0
    for line in lines:
        begins.append(count)
        count += len(line.split())
    found = [[] for _ in lines]
    which = 0
    for event in run([rio, "decode"], lines):
        words = event.split()
        if words[0] == "end" or words[1] == "bad":
            continue
        while which + 1 < len(begins) and begins[which + 1] <= int(words[0]):
            which += 1
        found[which].append((int(words[0]) - begins[which], *words[1:]))
    return found


def subsequence(events, others):
    rest = iter(others)
    return all(event in rest for event in events)


def wrong_bits(lane, rio):
    """How many single wrong bits made no event that was not sent; and those that did."""
    tried = [case for name in TRACES for case in cases(name)]
    lines = [line for _, _, groups in tried for line in (LOST, " ".join(groups))]
    heard = run([lane, "chars"], lines)[1::2]
    faults = [f"{i}: heard" for i, (_, positive, groups) in enumerate(tried)
              if heard[i].split() != hear(groups, positive)]
    read = events_by_line(rio, heard)
    sent = events_by_line(rio, [" ".join(chars) for chars, _, _ in tried])
    faults += [f"case {i}: {read[i]} of {sent[i]}" for i in range(len(tried)) if not subsequence(read[i], sent[i])]
    return len(tried), faults


def main(lane, rio):
    trips, faults = round_trips(lane)
    bits, more = wrong_bits(lane, rio)
    for fault in (faults + more)[:20]:
        print(fault)
    print(f"{trips} bursts there and back, {bits} wrong bits, {len(faults + more)} faults")
    return 1 if faults or more else 0


if __name__ == "__main__":
    sys.exit(main(*sys.argv[1:]))
