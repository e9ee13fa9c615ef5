"""Long traces of one link or of a star of them, with packets that are refused or find no room, as a foreign link layer
could write them: what a view makes of many lines."""
import binascii
import random

import trace

K28_3, SC = "k1c", "k7c"


def symbol(delimiter, s0, p0, p1, s1, cmd):
    """The characters of a control symbol."""
    number = s0 << 21 | p0 << 16 | p1 << 11 | s1 << 8 | cmd << 5
    number |= trace.crc5([number >> 23 - at & 1 for at in range(19)])
    return [delimiter, *(f"d{byte:02x}" for byte in number.to_bytes(3, "big"))]


def packet(rng, dest, source, most):
    """The link form of a packet with some bytes of data."""
    data = rng.randbytes(rng.randrange(2, most + 1, 2))
    body = bytes([0, rng.randrange(4) << 6 | 15, dest, source]) + data
    if len(body) > 80:
        body = body[:80] + binascii.crc_hqx(body[:80], 0xFFFF).to_bytes(2, "big") + body[80:]
    form = body + binascii.crc_hqx(body, 0xFFFF).to_bytes(2, "big")
    return form + bytes(-len(form) % 4)


class Star:
    """A trace in the making: two endpoints, or a switch with some."""

    def __init__(self, links, faults):
        self.rng, self.faults, self.acks, self.lines = random.Random(links), faults, {}, []
        self.ends = [chr(ord("A") + at) for at in range(max(2, links))]
        self.links = links

    def set_up(self):
        ends = [f"endpoint {name} {at}" for at, name in enumerate(self.ends, 1)]
        if self.links == 1:
            return [*ends, "link A.0 B.0"]
        return [*ends, f"switch S {self.links}", *(f"link {name}.0 S.{at}" for at, name in enumerate(self.ends))]

    def carry(self, port, peer, chars):
        self.lines += [f"sent {port} {' '.join(chars)}", f"got {peer} {' '.join(chars)}"]

    def hop(self, port, peer, form):
        """A packet goes over a link, perhaps more than once."""
        ack = self.acks.get(port, 0)
        other = self.acks.get(peer, 0)
        data = [f"d{byte:02x}" for byte in bytes([ack << 3 | form[0] & 3]) + form[1:]]
        chars = [*symbol(SC, 4, other, 31, 0, 0), *data, *symbol(SC, 4, other, 31, 2, 0)]
        while (chance := self.rng.random()) < 2 * self.faults:
            if chance < self.faults:
                self.refuse(port, peer, chars, ack)
            else:
                self.carry(port, peer, chars)
                self.carry(peer, port, symbol(K28_3, 1, ack, 31, 7, 0))
                self.carry(port, peer, symbol(K28_3, 4, other, 31, 3, 0))
        self.carry(port, peer, chars)
        self.lines.append(f"hold {peer} {form.hex()}")
        self.carry(peer, port, symbol(K28_3, 0, ack, 31, 7, 0))
        self.lines.append(f"free {port} {form.hex()}")
        self.acks[port] = (ack + 1) % 32

    def refuse(self, port, peer, chars, ack):
        """A byte of a packet is changed, and the packet is refused."""
        changed = list(chars)
        at = self.rng.randrange(5, len(chars) - 4)
        changed[at] = f"d{int(changed[at][1:], 16) ^ 1:02x}"
        self.lines += [f"sent {port} {' '.join(chars)}", f"got {peer} {' '.join(changed)}"]
        self.carry(peer, port, symbol(K28_3, 2, ack, 4, 7, 0))
        self.carry(port, peer, symbol(K28_3, 4, self.acks.get(peer, 0), 31, 4, 4))
        self.carry(peer, port, symbol(K28_3, 6, ack, 5, 7, 0))

    def send(self, most):
        """A packet goes from one endpoint to another."""
        source, dest = self.rng.sample(range(len(self.ends)), 2)
        form = packet(self.rng, dest + 1, source + 1, most)
        one, other = f"{self.ends[source]}.0", f"{self.ends[dest]}.0"
        self.lines.append(f"take {self.ends[source]} {form.hex()}")
        if self.links == 1:
            self.hop(one, other, form)
        else:
            self.hop(one, f"S.{source}", form)
            self.lines.append(f"move S.{source} S.{dest} {form.hex()}")
            self.hop(f"S.{dest}", other, form)
        self.lines.append(f"leave {self.ends[dest]} {form.hex()}")


def made(lines, links, most=16, faults=0.02):
    """What rio_view reads: set-up lines, a line ---, and a trace of at least so many lines."""
    star = Star(links, faults)
    while len(star.lines) < lines:
        star.send(most)
    return "\n".join([*star.set_up(), "---", *star.lines, "end", ""])
