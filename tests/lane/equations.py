#!/usr/bin/env python3
"""Compares the published table of crates/code_groups with the logic equations of the 8b/10b encoder: functions of single
bits, and no table. The last line is 'N passed, M failed': one trial for each group.

A. X. Widmer and P. A. Franaszek published the code in 1983 with these equations: the classes of ABCD by their number of
ones, L04 to L40, and rules on single bits. They share nothing with the tables of sub-blocks in the crate.

usage: tests/lane/equations.py
"""
import re
import sys
from pathlib import Path

TOP = Path(__file__).resolve().parent.parent.parent
SPECIALS = [0x1C, 0x3C, 0x5C, 0x7C, 0x9C, 0xBC, 0xDC, 0xFC, 0xF7, 0xFB, 0xFD, 0xFE]


def first_six(a, b, c, d, e, k):
    """Bits a to i as they are before any is turned over, and whether they are those for a negative and for a positive
    disparity in front of them, and whether they change it."""
    ab, cd = a == b, c == d
    l22 = (a and b and not c and not d) or (c and d and not a and not b) or (not ab and not cd)
    l40, l04 = a and b and c and d, not (a or b or c or d)
    l13 = (not ab and not c and not d) or (not cd and not a and not b)
    l31 = (not ab and c and d) or (not cd and a and b)
    d24 = e and d and not c and not b and not a
    k28 = k and e and d and c and not b and not a
    i = (l22 and not e) or (e and not d and not c and not (a and b)) or (e and l40) or k28 \
        or (e and not d and c and not b and not a)
    bits = [a, (b and not l40) or l04, l04 or c or d24, d and not (a and b and c), (e or l13) and not d24, i]
    positive = d24 or (not e and not l22 and not l31)
    heavy = k or (e and not l22 and not l13)
    negative = heavy or (not e and not d and c and b and a)
    return bits, negative, positive, positive or heavy, (e and not d and l13, not e and d and l31)


def encode(byte, k, positive):
    """The ten bits a to j of a character as a text, and whether the disparity after them is positive."""
    a, b, c, d, e, f, g, h = (bool(byte >> i & 1) for i in range(8))
    six, for_negative, for_positive, changes, sevens = first_six(a, b, c, d, e, k)
    turn_six = for_negative if positive else for_positive
    between = positive != changes
    alternate = f and g and h and (k or sevens[positive])
    four = [f and not alternate, g or not (f or g or h), h, (not h and f != g) or alternate]
    turn_four = f and g if between else not (f or g) or (k and f != g)
    after = between != (not (f or g) or (f and g and h))
    return "".join("01"[x] for x in [x != turn_six for x in six] + [x != turn_four for x in four]), after


def rows(text, name):
    """The groups that the file has under a name."""
    body = re.search(rf"^{name} =\n(.*?)\[\]", text, re.M | re.S)[1]
    return [word[2:].replace("_", "") for word in re.findall(r"0b[01_]+", body)]


def main():
    text = (TOP / "crates/code_groups/specs/Published.antt").read_text()
    wanted = {
        "published_data": [encode(byte, False, after)[0] for byte in range(256) for after in (False, True)],
        "published_special": [encode(byte, True, after)[0] for byte in SPECIALS for after in (False, True)],
    }
    failed = 0
    for name, groups in wanted.items():
        found = rows(text, name)
        failed += abs(len(found) - len(groups))
        for place, (one, other) in enumerate(zip(found, groups)):
            if one != other:
                failed += 1
                print(f"{name}: group {place} is {one}, and the equations have {other}")
    passed = sum(map(len, wanted.values())) - failed
    print(f"{passed} passed, {failed} failed")
    return failed > 0


if __name__ == "__main__":
    sys.exit(main())
