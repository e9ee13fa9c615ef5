#!/usr/bin/env python3
"""Tries `rio_lane bits` with the bursts of all stored traces. The status is 0 if all is as it should be.

- The groups of a trace, joined to bits after 0 to 9 bits that make no comma, and cut into lines anywhere, become the
  characters with the idles around them, from each of the two disparities on.
- A bit that is lost or made between two bursts is told as a slip, and each burst but those around it is heard as it
  was.

usage: tests/lane/bits.py RIO_LANE
"""
import random
import subprocess
import sys

from lines import IDLE, TOP, bursts, run
from model import send

TRACES = sorted(path.stem for path in (TOP / "examples").glob("*.trace"))


def sent_of(name, positive):
    """The bursts of a trace with their idles, and the bits of each."""
    sent, parts = [], []
    for burst in bursts(name):
        chars = IDLE + burst + IDLE
        groups, positive = send(chars, positive)
        sent.append(chars)
        parts.append("".join(groups))
    return sent, parts


def cut(bits, chance):
    """The bits in lines, cut anywhere."""
    lines = []
    while bits:
        length = chance.randrange(1, 400)
        lines.append(bits[:length])
        bits = bits[length:]
    return lines


def at_offsets(lane, chance):
    """How many streams were heard as they were sent; and what was not."""
    count, faults = 0, []
    for trace in TRACES:
        for positive in (False, True):
            sent, parts = sent_of(trace, positive)
            for offset in range(10):
                heard = run([lane, "bits"], cut(("10" * 5)[:offset] + "".join(parts), chance))
                if " ".join(heard).split() != sum(sent, []):
                    faults.append(f"{trace}, offset {offset}, positive {positive}")
                count += 1
    return count, faults


def slipped(lane, trace, more, chance):
    """What is wrong with a stream that lacks a bit between two bursts, or has one more."""
    sent, parts = sent_of(trace, False)
    place = chance.randrange(1, len(parts))
    parts[place - 1] = parts[place - 1] + "0" if more else parts[place - 1][:-1]
    ran = subprocess.run([lane, "bits"], input="".join(line + "\n" for line in cut("".join(parts), chance)).encode(),
                         capture_output=True, check=True)
    heard = ran.stdout.decode().split()
    before, after = sum(sent[:place - 1], []), sum(sent[place:], [])
    if heard[:len(before)] != before or (after and heard[-len(after):] != after):
        return f"{trace}: burst {place} is not as it was"
    return None if b"a slip" in ran.stderr else f"{trace}: no slip is told at burst {place}"


def slips(lane, chance):
    tried = [(trace, more) for trace in TRACES if len(bursts(trace)) > 1 for more in (False, True)]
    return len(tried), [fault for trace, more in tried if (fault := slipped(lane, trace, more, chance))]


def main(lane):
    chance = random.Random(64)
    streams, faults = at_offsets(lane, chance)
    told, more = slips(lane, chance)
    for fault in (faults + more)[:20]:
        print(fault)
    print(f"{streams} streams of bits, {told} slips, {len(faults + more)} faults")
    return 1 if faults or more else 0


if __name__ == "__main__":
    sys.exit(main(*sys.argv[1:]))
