#!/usr/bin/env python3
"""Tries `rio_lane --lanes 4` with the bursts of all stored traces. The status is 0 if all is as it should be.

- Each burst is written as the groups that the equations of the encoder give for the four lanes, each with its own
  disparity, and is read back with the align characters before it and the idles behind it.
- So it is with every lane late by 0 to 7 rows: all 4,096 skews of one burst, and some of each other.

usage: tests/lane/four.py RIO_LANE
"""
import itertools
import random
import sys

from lines import TOP, bursts, run
from model import send

TRACES = sorted(path.stem for path in (TOP / "examples").glob("*.trace"))
ROW, ALIGN = ["kbc"] * 4, ["kfb"] * 4


def behind(burst):
    """The idles up to a whole row, and a row of them."""
    return ["kbc"] * (4 + -len(burst) % 4)


def lanes_of(words):
    return [words[lane::4] for lane in range(4)]


def rows_of(lanes):
    return [word for row in zip(*lanes) for word in row]


def coded(chars, positive):
    """The groups of four lanes in rows, and the disparities after them."""
    sent = [send(lane, after) for lane, after in zip(lanes_of(chars), positive)]
    return rows_of([groups for groups, _ in sent]), [after for _, after in sent]


def late(burst, skew, positive):
    """The rows of a burst in which each lane is late by so many rows, with idles before and after it."""
    lanes = lanes_of(ROW + ALIGN + burst + behind(burst))
    waiting = [["kbc"] * rows + lane + ["kbc"] * (max(skew) - rows) for rows, lane in zip(skew, lanes)]
    return " ".join(rows_of([send(lane, after)[0] for lane, after in zip(waiting, positive)]))


def round_trips(lane):
    count, faults = 0, []
    for trace in TRACES:
        sent, groups, positive = bursts(trace), [], [False] * 4
        for burst in sent:
            rows, positive = coded(ROW + ALIGN + burst + behind(burst), positive)
            groups.append(" ".join(rows))
        written = run([lane, "--lanes", "4", "groups"], [" ".join(burst) for burst in sent])
        heard = run([lane, "--lanes", "4", "chars"], written)
        faults += [f"{trace}: groups"] * (written != groups)
        faults += [f"{trace}: characters"] * (heard != [" ".join(ALIGN + burst + behind(burst)) for burst in sent])
        count += len(sent)
    return count, faults


def skewed(chance):
    """Bursts and skews: all of one burst, and some of each other."""
    for skew in itertools.product(range(8), repeat=4):
        yield bursts("first")[0], skew
    for trace in TRACES:
        for burst in bursts(trace):
            yield burst, [chance.randrange(8) for _ in range(4)]


def skews(lane, chance):
    """How many bursts came back from late lanes; and those that did not. Each is heard by new lanes."""
    tried = list(skewed(chance))
    lost = " ".join(["0000000000"] * 16)
    lines = [line for burst, skew in tried
             for line in (lost, late(burst, skew, [chance.random() < 0.5 for _ in range(4)]))]
    heard = run([lane, "--lanes", "4", "chars"], lines)[1::2]
    faults = []
    for (burst, skew), line in zip(tried, heard):
        wanted = ALIGN + burst + behind(burst)
        words = line.split()
        if words[:len(wanted)] != wanted or set(words[len(wanted):]) - {"kbc"}:
            faults.append(f"skew {skew} of {' '.join(burst[:4])}")
    return len(tried), faults


def main(lane):
    trips, faults = round_trips(lane)
    tried, more = skews(lane, random.Random(4))
    for fault in (faults + more)[:20]:
        print(fault)
    print(f"{trips} bursts over four lanes and back, {tried} skews, {len(faults + more)} faults")
    return 1 if faults or more else 0


if __name__ == "__main__":
    sys.exit(main(*sys.argv[1:]))
