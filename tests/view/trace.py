"""A trace as Python reads it, by the pages alone: the events of characters, and the states of ports."""
import binascii

SENDERS = {0: "packet-accepted", 1: "packet-retry", 2: "packet-not-accepted", 4: "status", 6: "link-response"}
RECEIVERS = {0: "start-of-packet", 1: "stomp", 2: "end-of-packet", 3: "restart-from-retry", 4: "link-request",
             5: "multicast-event", 7: "NOP"}
SETS_UP = ("endpoint", "switch", "link", "buffers", "route", "default", "lock", "large", "credits")


def set_up_of(script):
    """The set-up lines of a script."""
    return [line for line in script.splitlines() if line.split(" ")[0] in SETS_UP]


def crc5(bits):
    """The CRC of the bits of a symbol: a register of five bits, and one bit 0 more."""
    register = 31
    for one in (*bits, 0):
        register = (register << 1 ^ (0x15 if (register >> 4 ^ one) & 1 else 0)) & 31
    return register


def symbol_of(data):
    """stype0, parameter0, parameter1, stype1 and cmd of three bytes, or None if the CRC is another."""
    number = int.from_bytes(data, "big")
    bits = [number >> 23 - at & 1 for at in range(19)]
    if crc5(bits) != number & 31:
        return None
    return number >> 21, number >> 16 & 31, number >> 11 & 31, number >> 8 & 7, number >> 5 & 7


def packet_of(data):
    """The ackID and the link form with ackID 0, or None if it is none."""
    form = bytes([data[0] & 3]) + data[1:]
    good = len(data) % 4 == 0 and 8 <= len(data) <= 276 and binascii.crc_hqx(form, 0xFFFF) == 0
    if not good or (len(data) >= 84 and binascii.crc_hqx(form[:82], 0xFFFF)):
        return None
    return data[0] >> 3, form


class Reader:
    """Reads the characters of a wire: docs/characters.md. What it meets of that page's tables is told in words."""

    def __init__(self):
        self.symbol, self.packet, self.skips = None, None, False
        self.met = []

    def meet(self, words):
        """An entry of the reading is met."""
        self.met.append(f"reading: {words}")

    def take(self, text):
        """The events of one character: ('symbol', fields), ('packet', ack, form) or ('bad', cause)."""
        kind, byte = (text[0], int(text[1:], 16)) if text != "inv" else ("i", 0)
        if self.symbol is not None:
            return self.within_symbol(text, kind, byte)
        if text in ("k1c", "k7c"):
            if self.skips:
                self.meet("an idle or a delimiter ends skipping")
            self.symbol, self.skips = (text, b""), False
            return []
        return self.outside_symbol(text, kind, byte)

    def within_symbol(self, text, kind, byte):
        if kind != "d":
            what = "a delimiter" if text in ("k1c", "k7c") else "an idle" if is_idle(text) else "a stray"
            self.meet(f"{what} within a symbol: bad 5")
            self.symbol, self.packet = None, None
            if text in ("k1c", "k7c"):
                self.symbol = (text, b"")
            self.skips = text not in ("k1c", "k7c") and not is_idle(text)
            return [("bad", 5)]
        delimiter, data = self.symbol[0], self.symbol[1] + bytes([byte])
        self.symbol = (delimiter, data)
        return self.whole_symbol(delimiter, data) if len(data) == 3 else []

    def whole_symbol(self, delimiter, data):
        self.symbol = None
        fields = symbol_of(data)
        if fields is None or not (fields[3] <= 4 if delimiter == "k7c" else fields[3] >= 3):
            self.meet("three bytes that spell no symbol: bad 2" if fields is None
                      else "a symbol behind a delimiter that does not allow it: bad 31")
            self.packet, self.skips = None, True
            return [("bad", 2 if fields is None else 31)]
        told = []
        if fields[3] in (0, 2) and self.packet is not None:
            found = packet_of(self.packet) if len(self.packet) >= 8 else None
            cause = 31 if len(self.packet) < 8 else 4
            told.append(("packet", *found) if found else ("bad", cause))
            if not found:
                self.meet("a packet of fewer than 8 bytes: bad 31" if cause == 31
                          else "a packet of 8 bytes or more with a bad CRC: bad 4")
            if fields[3] == 0:
                self.meet("a packet that the next start-of-packet ends")
        elif self.packet is not None:
            self.meet("stomp within a packet: the packet is dropped" if fields[3] == 1
                      else "restart-from-retry or link-request within a packet: the packet is dropped" if fields[3] <= 4
                      else "another symbol within a packet: the packet goes on")
        elif fields[3] == 2:
            self.meet("end-of-packet between packets: no packet")
        if fields[3] <= 4:
            self.packet = b"" if fields[3] == 0 else None
        return [*told, ("symbol", fields)]

    def outside_symbol(self, text, kind, byte):
        if is_idle(text):
            self.meet("an idle within a packet: bad 5" if self.packet is not None
                      else "an idle or a delimiter ends skipping" if self.skips else "an idle between packets: nothing")
            broken, self.packet, self.skips = self.packet is not None, None, False
            return [("bad", 5)] if broken else []
        if kind == "d" and self.packet is not None:
            self.packet += bytes([byte])
            if len(self.packet) > 276:
                self.meet("the 277th byte of a packet: bad 31")
                self.packet, self.skips = None, True
                return [("bad", 31)]
            return []
        if self.skips:
            self.meet("data or a stray that is skipped: nothing")
            return []
        self.meet("a stray within a packet: bad 5" if self.packet is not None
                  else "data between packets: bad 5" if kind == "d" else "a stray between packets: bad 5")
        self.packet, self.skips = None, True
        return [("bad", 5)]


def is_idle(text):
    """K, R and A of the idle sequence."""
    return text in ("kbc", "kfd", "kfb")


class Port:
    """A port by the step tables of docs/link.md; each entry that it meets is told in words."""

    def __init__(self, buffers, tells=False):
        self.output, self.asked, self.oldest, self.sent = "OK", False, 0, []
        self.input, self.expected, self.buffers, self.held, self.tells = "OK", 0, buffers, 0, tells
        # How many packets of each priority are to be sent that are not outstanding; the far port's base and free buffers
        self.waiting, self.report = [0, 0, 0, 0], None
        self.pumped = 0
        self.met = []

    @property
    def outstanding(self):
        return len(self.sent)

    def put(self, prio):
        """A packet is to be sent."""
        self.waiting[prio] += 1

    def next_prio(self):
        """The highest priority that waits, or None."""
        return next((prio for prio in (3, 2, 1, 0) if self.waiting[prio]), None)

    def has_credit(self, prio):
        if self.report is None:
            return True
        base, free = self.report
        return free - (self.oldest + self.outstanding - base) % 32 > 3 - prio

    def is_ready(self):
        prio = self.next_prio()
        return self.output == "OK" and prio is not None and self.outstanding < 31 and self.has_credit(prio)

    def send_again(self):
        """What was sent and is not accepted waits again."""
        for prio in self.sent:
            self.waiting[prio] += 1
        self.sent = []

    def symbol(self, fields):
        s0, p0, p1, s1, cmd = fields
        if s0 in (0, 1, 4):
            self.report = None if p1 == 31 else ((p0 + 1) % 32 if s0 == 0 else p0, p1)
        self.met.append(self.to_output(s0, p0))
        self.met.append(self.to_input(s1, cmd))

    def to_output(self, s0, ack):
        name = SENDERS.get(s0, "reserved")
        head = f"output {self.output}: "
        if self.output == "failed":
            return head + "any stype0: ignored"
        if name in ("status", "reserved"):
            return head + "another stype0: ignored"
        if self.output == "error-stopped":
            return head + self.stopped_output(name, ack)
        if name == "link-response":
            return head + "link-response: ignored"
        return head + self.running_output(name, ack)

    def stopped_output(self, name, ack):
        if name != "link-response":
            return f"{name}: ignored"
        if not self.asked:
            return "link-response that was not asked for: ignored"
        if (ack - self.oldest) % 32 > self.outstanding:
            self.output = "failed"
            return "link-response with another ackID: failed"
        count = (ack - self.oldest) % 32
        if count:
            self.met.append("output error-stopped: link-response that accepts packets: they are freed")
        self.sent = self.sent[count:]
        self.send_again()
        self.output, self.oldest = "OK", ack
        return "link-response with an ackID that can be expected: OK"

    def running_output(self, name, ack):
        is_oldest = self.outstanding > 0 and ack == self.oldest
        if self.output == "OK" and is_oldest and name == "packet-accepted":
            if ack == 31:
                self.met.append("output OK: packet-accepted of ackID 31: 0 is the oldest")
            self.oldest, self.sent = (self.oldest + 1) % 32, self.sent[1:]
            return "packet-accepted of the oldest packet: OK"
        if self.output == "OK" and is_oldest and name == "packet-retry":
            self.output = "retry-stopped"
            return "packet-retry of the oldest packet: retry-stopped"
        is_other = self.output == "OK" and name != "packet-not-accepted"
        self.output, self.asked = "error-stopped", False
        return f"{'another ' if is_other else ''}{name}: error-stopped"

    def to_input(self, s1, cmd):
        head = f"input {self.input}: "
        if s1 == 4 and cmd == 4:
            status = f"link-response {self.input}"
            then = "" if self.input == "OK" else ", OK"
            self.input = "OK"
            return f"{head}link-request input-status: {status}{then}"
        if s1 == 4:
            return "any input: link-request with another cmd: nothing"
        if s1 != 3:
            return "any input: another stype1: nothing"
        return head + "restart-from-retry: " + self.restart()

    def restart(self):
        if self.input == "retry-stopped":
            self.input = "OK"
            return "OK"
        if self.input == "error-stopped":
            return "ignored"
        self.input = "error-stopped"
        return "packet-not-accepted, error-stopped"

    def packet(self, ack, prio):
        head = f"input {self.input}: "
        if self.input != "OK":
            self.met.append(head + "a packet: dropped")
        elif ack != self.expected:
            self.input = "error-stopped"
            self.met.append(head + "a packet with another ackID: packet-not-accepted, error-stopped")
        elif self.buffers - self.held > 3 - prio:
            if ack == 31:
                self.met.append("input OK: the expected packet has ackID 31: 0 is expected")
            self.expected, self.held = (self.expected + 1) % 32, self.held + 1
            self.met.append(head + "the expected packet, with room: packet-accepted")
        else:
            self.input = "retry-stopped"
            self.met.append(head + "the expected packet, without room: packet-retry, retry-stopped")

    def bad(self):
        head = f"input {self.input}: bad: "
        if self.input == "error-stopped":
            self.met.append(head + "ignored")
        else:
            self.input = "error-stopped"
            self.met.append(head + "packet-not-accepted, error-stopped")

    def turn(self, what, prio=None):
        """The port sends this: a packet of a priority, or a symbol that it owes."""
        self.pumped = max(0, self.pumped - 1)
        self.met.append(f"turn, output {self.output}: {what} is sent")
        if what == "a packet":
            self.start(prio)
        elif what == "restart-from-retry":
            self.send_again()
            self.output = "OK"
        else:
            self.asked = True

    def start(self, prio):
        if not self.waiting[prio]:
            self.put(prio)
        if self.report is not None:
            self.met.append("turn, output OK, the far port tells its free buffers: a packet is sent within its credit")
        self.waiting[prio] -= 1
        self.sent.append(prio)
        behind = self.next_prio()
        if behind is not None and behind < prio:
            self.met.append("turn, output OK: a packet is sent before one of a lower priority that waits")

    def unsent(self):
        """What a turn while OK meets in which no packet is sent."""
        if self.next_prio() is None:
            return "turn, output OK, nothing waits: no packet is sent"
        if self.outstanding == 31:
            return "turn, output OK, the window is full: the packet that waits is not sent"
        return "turn, output OK, without credit: the packet that waits is not sent"

    def tell(self):
        """The port sends its status."""
        self.pumped = max(0, self.pumped - 1)
        if self.tells and self.output == "OK" and not self.is_ready():
            self.met += [self.unsent(), "turn, output OK: status is sent in place of a packet"]

    def rest(self):
        """The turns of a pump end, of which no line was seen."""
        if self.output == "OK" and not self.is_ready() and not self.tells:
            self.met += [self.unsent()] * self.pumped
        elif self.output == "failed":
            self.met += ["turn, output failed: nothing"] * self.pumped
        elif self.output == "error-stopped" and self.asked:
            self.met += ["turn, output error-stopped, the link-request was sent: nothing"] * self.pumped
        self.pumped = 0

    def time_out(self):
        then = {"OK": "error-stopped", "error-stopped": "the link-request is to be sent again"}
        self.met.append(f"time-out, output {self.output}: {then.get(self.output, 'nothing')}")
        if self.output == "OK":
            if not self.sent:
                self.met.append("time-out, output OK, nothing is outstanding: error-stopped")
            self.output = "error-stopped"
        self.asked = False
