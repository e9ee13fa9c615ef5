"""The 8b/10b code by the logic equations of its encoder, as a model for the tests of rio_lane."""
from equations import SPECIALS, encode

CHARS = [(byte, False) for byte in range(256)] + [(byte, True) for byte in SPECIALS]
GROUPS = {(char, after): encode(*char, after) for char in CHARS for after in (False, True)}
HEARD = {(groups[0], after): char for (char, after), groups in GROUPS.items()}


def spelled(char):
    """The text of a character, or `inv`."""
    return "inv" if char is None else "%s%02x" % ("dk"[char[1]], char[0])


def read(word):
    return int(word[1:], 16), word[0] == "k"


def after_block(bits, positive):
    """Whether the disparity after six or four bits is positive."""
    ones = 2 * bits.count("1")
    if ones != len(bits):
        return ones > len(bits)
    return {"000111": True, "0011": True, "111000": False, "1100": False}.get(bits, positive)


def after(group, positive):
    return after_block(group[6:], after_block(group[:6], positive))


def send(words, positive):
    """The groups of characters, and whether the disparity after them is positive."""
    groups = []
    for word in words:
        group, positive = GROUPS[read(word), positive]
        groups.append(group)
    return groups, positive


def hear(groups, positive):
    """The characters that a receiver of this disparity takes groups for."""
    words = []
    for group in groups:
        words.append(spelled(HEARD.get((group, positive))))
        positive = after(group, positive)
    return words


def with_wrong_bit(groups, place, bit):
    """The same groups, but for one bit."""
    turned = list(groups[place])
    turned[bit] = "10"[int(turned[bit])]
    return groups[:place] + ["".join(turned)] + groups[place + 1:]
