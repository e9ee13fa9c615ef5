"""A small link layer, as a device has one: what is joined to rio_port in bench.py, in place of one's own.

usage: device.py    prints a start-of-packet, a packet-accepted and a packet, to be held against docs/trace-format.md

It reads characters one by one, keeps the packets to be sent in four lists, one for each priority, and has the states of
docs/link.md. A packet is its link form in hexadecimal with ackID 0. It does not tell its free buffers.
"""

IDLE = ("kbc", "kfd", "kfb")
WINDOW = 31
BUFFERS = 8
# stype0 and stype1 of the symbols
ACCEPTED, RETRY, NOT_ACCEPTED, STATUS, RESPONSE = 0, 1, 2, 4, 6
START, STOMP, END, RESTART, REQUEST, NOP = 0, 1, 2, 3, 4, 7


def remainder(value, bits, polynomial, width):
    """The remainder of so many bits, with as many zeros behind them as the remainder has."""
    value <<= width
    for place in range(bits + width - 1, width - 1, -1):
        if value >> place & 1:
            value ^= (1 << width | polynomial) << place - width
    return value


def symbol_bytes(stype0, first, second, stype1, cmd=0):
    """The three bytes of a symbol: nineteen bits and a zero, of which the five foremost are inverted, have the CRC."""
    bits = (((stype0 << 5 | first) << 5 | second) << 3 | stype1) << 3 | cmd
    crc = remainder(bits << 1 ^ 0x1F << 15, 20, 0b10101, 5)
    return (bits << 5 | crc).to_bytes(3, "big")


def data(text):
    return ["d%02x" % byte for byte in text]


def symbol(stype0, first, second, stype1, cmd=0):
    """The characters of a symbol."""
    return ["k7c" if stype1 in (START, STOMP, END) else "k1c"] + data(symbol_bytes(stype0, first, second, stype1, cmd))


def crc16(text):
    """The CRC of bytes, whose first six bits count as zeros."""
    value = int.from_bytes(bytes([text[0] & 3]) + text[1:], "big")
    preset = 0xFFFF << 8 * len(text) - 16
    return remainder(value ^ preset, 8 * len(text), 0x1021, 16)


def link_form(prio, ftype, source, dest, contents):
    """The link form of a packet with 8-bit IDs: up to 76 bytes of contents."""
    body = bytes([0, prio << 6 | ftype, dest, source]) + contents
    form = body + crc16(body).to_bytes(2, "big")
    return (form + bytes(-len(form) % 4)).hex()


def carried(text):
    """The ackID and the packet that bytes carry, or None. Up to 80 bytes of a body have one CRC."""
    bare = bytes([text[0] & 3]) + text[1:]
    for form in (bare, bare[:-2]) if bare[-2:] == b"\0\0" else (bare,):
        if len(form) <= 82 and len(bare) % 4 == 0 and crc16(form[:-2]) == int.from_bytes(form[-2:], "big"):
            return text[0] >> 3, bare.hex()
    return None


def prio_of(packet):
    return int(packet[2:4], 16) >> 6


class Device:
    """One end of a link."""

    def __init__(self):
        self.symbol = self.packet = None
        self.skipping = False
        self.output, self.asked, self.first, self.sent = "ok", False, 0, []
        self.input, self.expected, self.held = "ok", 0, []
        self.queues = [[], [], [], []]

    def offer(self, packet):
        """Takes a packet to be sent, if there is room."""
        queue = self.queues[prio_of(packet)]
        if len(queue) == 16:
            return False
        queue.append(packet)
        return True

    def take(self):
        """Gives out the first held packet of the highest priority."""
        best = max(self.held, key=prio_of, default=None)
        if best is not None:
            self.held.remove(best)
        return best

    def waits(self):
        """Whether an answer is to come."""
        return bool(self.sent) or self.output != "ok"

    def time_out(self):
        if self.output in ("ok", "error-stopped"):
            self.output, self.asked = "error-stopped", False

    # ---- what it sends

    def turn(self):
        """The characters of a turn: at most one packet or symbol."""
        if self.output == "retry-stopped":
            self.output, self.sent = "ok", []
            return symbol(STATUS, self.expected, 31, RESTART)
        if self.output == "error-stopped" and not self.asked:
            self.asked = True
            return symbol(STATUS, self.expected, 31, REQUEST, 4)
        waiting = [prio for prio in (3, 2, 1, 0) if len(self.queues[prio]) > self.sent.count(prio)]
        if self.output != "ok" or not waiting or len(self.sent) == WINDOW:
            return []
        packet = self.queues[waiting[0]][self.sent.count(waiting[0])]
        ack = (self.first + len(self.sent)) % 32
        self.sent.append(waiting[0])
        text = bytes([ack << 3 | int(packet[:2], 16)]) + bytes.fromhex(packet[2:])
        return symbol(STATUS, self.expected, 31, START) + data(text) + symbol(STATUS, self.expected, 31, END)

    # ---- what it reads

    def got(self, char):
        """Takes a character. Answers what came of it: packets that are held, packets that are freed, and replies."""
        self.told = [], [], []
        delimiter = char in ("k1c", "k7c")
        if delimiter or char in IDLE:
            if self.symbol is not None or char in IDLE and self.packet is not None:
                self.bad(5)
            self.skipping, self.symbol = False, [char] if delimiter else None
        elif char[0] != "d":
            if self.symbol is not None or not self.skipping:
                self.bad(5)
            self.symbol, self.skipping = None, True
        elif self.symbol is not None:
            self.symbol.append(char)
            if len(self.symbol) == 4:
                self.read_symbol()
        elif self.packet is not None:
            self.packet.append(int(char[1:], 16))
            if len(self.packet) == 277:
                self.bad(31)
                self.skipping = True
        elif not self.skipping:
            self.bad(5)
            self.skipping = True
        return self.told

    def read_symbol(self):
        (delimiter, *text), self.symbol = self.symbol, None
        text = bytes(int(char[1:], 16) for char in text)
        bits = int.from_bytes(text, "big")
        fields = bits >> 21, bits >> 16 & 31, bits >> 11 & 31, bits >> 8 & 7, bits >> 5 & 7
        if symbol_bytes(*fields) != text or (delimiter == "k7c") != (fields[3] < RESTART):
            self.skipping = True
            return self.bad(2 if symbol_bytes(*fields) != text else 31)
        packet, stype1 = self.packet, fields[3]
        if packet is not None and stype1 in (START, END):
            self.read_packet(bytes(packet))
        if stype1 in (START, END, STOMP, RESTART, REQUEST):
            self.packet = [] if stype1 == START else None
        self.hear(fields[0], fields[1])
        self.serve(stype1, fields[4])

    def read_packet(self, text):
        self.packet = None
        found = carried(text) if len(text) >= 8 else None
        if found is None:
            return self.bad(4 if len(text) >= 8 else 31)
        ack, packet = found
        if self.input != "ok":
            return
        if ack != self.expected:
            self.refuse(1)
        elif BUFFERS - len(self.held) > 3 - prio_of(packet):
            self.held.append(packet)
            self.told[0].append(packet)
            self.reply(ACCEPTED, ack, 31)
            self.expected = (ack + 1) % 32
        else:
            self.reply(RETRY, ack, 31)
            self.input = "retry-stopped"

    def bad(self, cause):
        self.packet = None
        if self.input != "error-stopped":
            self.refuse(cause)

    def refuse(self, cause):
        self.reply(NOT_ACCEPTED, self.expected, cause)
        self.input = "error-stopped"

    def reply(self, stype0, first, second):
        self.told[2].append(symbol(stype0, first, second, NOP))

    def hear(self, stype0, ack):
        """What a symbol does at the output half."""
        oldest = bool(self.sent) and ack == self.first
        if self.output == "error-stopped":
            count = (ack - self.first) % 32
            if stype0 == RESPONSE and self.asked and count <= len(self.sent):
                self.free(count)
                self.output, self.sent = "ok", []
        elif self.output == "ok" and stype0 == ACCEPTED and oldest:
            self.free(1)
        elif self.output == "ok" and stype0 == RETRY and oldest:
            self.output = "retry-stopped"
        elif stype0 in (ACCEPTED, RETRY, NOT_ACCEPTED):
            self.output, self.asked = "error-stopped", False

    def free(self, count):
        self.told[1].extend(self.queues[prio].pop(0) for prio in self.sent[:count])
        self.sent = self.sent[count:]
        self.first = (self.first + count) % 32

    def serve(self, stype1, cmd):
        """What a symbol does at the input half."""
        if stype1 == RESTART and self.input != "error-stopped":
            if self.input == "ok":
                return self.refuse(31)
            self.input = "ok"
        elif stype1 == REQUEST and cmd == 4:
            state = {"ok": 16, "retry-stopped": 4, "error-stopped": 5}[self.input]
            self.reply(RESPONSE, self.expected, state)
            self.input = "ok"


if __name__ == "__main__":
    print(*symbol(STATUS, 0, 31, START))
    print(*symbol(ACCEPTED, 0, 31, NOP))
    print(link_form(0, 15, 1, 2, bytes.fromhex("cafe0001")))
