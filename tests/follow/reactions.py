"""Trials of rio_follow reactions: over the traces of the examples, over the same with one reaction changed, and over lines whose
answers docs/link.md and docs/checking.md give."""
from pair import inputs

REACTIONS = (0, 1, 2, 6)  # stype0 of packet-accepted, packet-retry, packet-not-accepted and link-response
SET_UP = b"endpoint A 1\nendpoint B 2\nlink A.0 B.0\n"


def crc5(bits):
    """The CRC of 19 bits of a control symbol and a bit 0: x^5 + x^4 + x^2 + 1, from ones."""
    crc = 0x1F
    for place in range(18, -2, -1):
        bit = bits >> place & 1 if place >= 0 else 0
        crc = (crc << 1 & 0x1F) ^ (0x15 if (crc >> 4) ^ bit else 0)
    return crc


def symbol(stype0, ack, other=31):
    """The characters of a control symbol that only answers."""
    bits = stype0 << 16 | ack << 11 | other << 6 | 7 << 3
    return [b"k1c"] + [b"d%02x" % ((bits << 5 | crc5(bits)) >> shift & 0xFF) for shift in (16, 8, 0)]


def reactions_of(lines):
    """Each reaction of a trace: the place of its line, the place of its delimiter in it, the port, and stype0 with ackID."""
    for place, line in enumerate(lines):
        words = line.split(b" ")
        if words[0] != b"sent":
            continue
        for at in range(2, len(words) - 3):
            first = words[at + 1]
            if words[at] == b"k1c" and first.startswith(b"d") and int(first[1:], 16) >> 5 in REACTIONS:
                yield place, at, words[1], divmod(int(first[1:], 16), 32)


def put(lines, place, at, chars, size=4):
    """The lines with other characters in the place of a symbol. A line without characters goes."""
    words = lines[place].split(b" ")
    words[at : at + size] = chars
    return lines[:place] + ([b" ".join(words)] if len(words) > 2 else []) + lines[place + 1 :]


def changes(lines):
    """Lines with one reaction changed, what was changed, and the place of the line at which it is wrong; no place if none is."""
    found = list(reactions_of(lines))
    for i, (place, at, port, (kind, ack)) in enumerate(found):
        later = [one for one in found[i + 1 :] if one[2] == port]
        yield "another ackID", put(lines, place, at, symbol(kind, (ack + 1) % 32)), place
        yield "another symbol", put(lines, place, at, symbol(1 if kind == 0 else 0, ack)), place
        left = put(lines, place, at, [])
        gone = len(lines) - len(left)
        chain = [(place, at, port, (kind, ack))] + later
        wrong = next((b[0] - gone for a, b in zip(chain, later) if a[3] != b[3]), None)
        yield "left out", left, wrong
        if not later or later[0][3] != (kind, ack):
            yield "sent twice", put(lines, place, at + 4, symbol(kind, ack), 0), place
        if later and later[0][3] != (kind, ack):
            swapped = put(lines, later[0][0], later[0][1], symbol(kind, ack))
            yield "exchanged", put(swapped, place, at, symbol(*later[0][3])), place


def over_examples(run):
    """Every trace of the examples answers as the tables say; and each change of one reaction is found at its line."""
    for name, text in inputs():
        lines = text.split(b"\n")
        count = len(list(reactions_of(lines)))
        status, wrote, _ = run(text, "reactions")
        yield f"{name}, reactions", (status, wrote) == (0, b"answered %d\n" % count)
        drawn = list(changes(lines))
        for number in range(0, len(drawn), max(1, len(drawn) // 40)):
            what, changed, place = drawn[number]
            wanted = (0, b"answered %d\n" % (count - 1)) if place is None else (10, b"wrong %d\n" % (place + 1))
            status, wrote, said = run(b"\n".join(changed), "reactions")
            yield f"{name}, {what} {number}", (status, wrote) == wanted and said != b""


def packet(ack):
    """A packet of priority 0 with an ackID, which its CRC does not see, between its symbols."""
    return b"k7c d80 df8 d1f d%02x d0f d02 d01 dca dfe d00 d01 da9 dbb d00 d00 k7c d80 dfa d18" % (ack << 3)


def sent(stype0, ack, other=31):
    """The line of a reaction of B."""
    return b"sent B.0 " + b" ".join(symbol(stype0, ack, other))


def got(chars):
    """The line of characters that B gets."""
    return b"got B.0 " + chars


LEAVE = b"leave B 000f0201cafe0001a9bb0000"
FOUR = SET_UP + b"buffers B.0 4\n"

# name, set-up lines, lines, what is answered (the place of the line that is wrong, or how many reactions were sent), words
RULES = [
    ("two come before the first is answered", SET_UP, [got(packet(0)), got(packet(1)), sent(0, 0), sent(0, 1)], 2, b""),
    ("a packet in two pieces", SET_UP, [got(packet(0)[:39]), got(packet(0)[40:]), sent(0, 0)], 1, b""),
    ("an acceptance before the end of its packet", SET_UP, [got(packet(0)[:39]), sent(0, 0), got(packet(0)[40:])], (1,),
     b"B.0 sent packet-accepted 0, and no reaction was due"),
    ("no room behind one of priority 0", FOUR, [got(packet(0)), sent(0, 0), got(packet(1)), sent(1, 1)], 2, b""),
    ("an acceptance without room", FOUR, [got(packet(0)), sent(0, 0), got(packet(1)), sent(0, 1)], (3,),
     b"B.0 sent packet-accepted 1, and packet-retry 1 was due"),
    ("room again", FOUR, [got(packet(0)), sent(0, 0), LEAVE, got(packet(1)), sent(0, 1)], 2, b""),
    ("eight buffers hold five of priority 0", SET_UP,
     [line for ack in range(5) for line in (got(packet(ack)), sent(0, ack))] + [got(packet(5)), sent(1, 5)], 6, b""),
    ("another ackID", SET_UP, [got(packet(3)), sent(2, 0, 1)], 1, b""),
    ("any cause", SET_UP, [got(packet(3)), sent(2, 0, 30)], 1, b""),
    ("any buffer status", SET_UP, [got(packet(0)), sent(0, 0, 7)], 1, b""),
    ("a refusal is due once", SET_UP, [got(packet(3)), got(packet(4)), sent(2, 0), sent(2, 0)], (3,),
     b"B.0 sent packet-not-accepted 0, and no reaction was due"),
    ("nothing is due without a cause", SET_UP, [sent(6, 0)], (0,), b"B.0 sent link-response 0, and no reaction was due"),
    ("what is due at the end", SET_UP, [got(packet(0)), got(packet(1)), sent(0, 0)], 1,
     b"rio_follow: B.0 has not sent what is due: 1\n"),
    ("no line of a trace", SET_UP, [got(packet(0)), b"nothing"], "unlawful 6 21", b"rio_follow: line 6: "),
]


def over_rules(run):
    """Lines whose answers the rules give."""
    for name, set_up, lines, wanted, words in RULES:
        text = set_up + b"---\n" + b"\n".join(lines) + b"\n"
        if isinstance(wanted, int):
            answer = 0, b"answered %d\n" % wanted
        elif isinstance(wanted, tuple):
            answer = 10, b"wrong %d\n" % (set_up.count(b"\n") + 2 + wanted[0])
        else:
            answer = 10, wanted.encode() + b"\n"
        status, wrote, said = run(text, "reactions")
        yield f"{name}, reactions", (status, wrote) == answer and (words in said if words else said == b"")


def over_ends(run):
    """Ends that no trace shows."""
    yield "refused, reactions", run(b"endpoint A 1\nnothing\n", "reactions")[:2] == (3, b"refused 2 1\n")
    yield "no line between, reactions", run(SET_UP, "reactions")[:2] == (3, b"refused 4 15\n")
    yield "nothing behind it, reactions", run(SET_UP + b"---\n", "reactions") == (0, b"answered 0\n", b"")
    for words in (("reactions", "tell"), ("tell", "reactions"), ("reactions", "--report", "tap")):
        yield " ".join(words), run(SET_UP + b"---\n", *words)[:2] == (2, b"")
