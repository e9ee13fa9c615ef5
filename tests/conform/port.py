#!/usr/bin/env python3
"""A plain port of a link, written from docs/link.md and docs/characters.md, that answers the lines of docs/live.md.

usage: port.py [BUFFERS [FAULT]]    FAULT: a name of FAULTS, by which the port is wrong; port.py faults lists them.
With `slow` it is right: answers go out at its next turn, idle turns send a status, and idles stand around all it sends.
It has no code of the programs here. A packet is its link form, as bytes with an ackID of 0.
"""
import sys

ACCEPTED, RETRY, NOT_ACCEPTED, STATUS, RESPONSE = 0, 1, 2, 4, 6
START, STOMP, END, RESTART, REQUEST, NOP = 0, 1, 2, 3, 4, 7
DELIMITERS, IDLES = ("k1c", "k7c"), ("kbc", "kfd", "kfb")

FAULTS = {
    "crc-is-preset-again": "behind byte 80 of a packet the CRC begins anew",
    "nop-ends-a-packet": "a packet is ended by a NOP within it",
    "takes-any-ackid": "a packet is taken whatever its ackID is",
    "retries-with-room": "a packet of priority 0 is retried though there is room",
    "frees-on-any-acceptance": "the oldest packet is given up on each packet-accepted",
    "sends-accepted-again": "after a link-response all packets are sent again",
    "retried-go-last": "what was retried goes to the end of its list",
    "one-outstanding": "the second packet waits until the first is accepted",
    "never-accepts": "a packet is held, and no packet-accepted is sent",
    "accepts-the-next": "packet-accepted has the ackID behind that of the packet",
    "takes-without-room": "a packet is taken whether there is room or not",
    "last-buffer-for-all": "a packet of each priority takes the last buffer",
    "one-buffer-fewer": "one buffer is never used",
    "takes-while-retry-stopped": "a packet is taken before restart-from-retry came",
    "takes-while-error-stopped": "a packet is taken before a link-request came",
    "refuses-twice": "each error is answered, also while error-stopped",
    "ignores-symbol-crc": "a control symbol is read whatever its CRC is",
    "ignores-packet-crc": "a packet is read whatever its CRC is",
    "ignores-invalid": "an invalid character is passed over",
    "ignores-idle-in-packet": "an idle within a packet is passed over",
    "stomp-delivers": "a packet is taken though a stomp ends it",
    "start-drops": "a start-of-packet drops the packet before it",
    "restart-at-any-time": "restart-from-retry is no error while the input is OK",
    "request-not-answered": "a link-request while the input is OK is not answered",
    "request-keeps-stopped": "a link-request leaves the input error-stopped",
    "response-is-always-ok": "the port status of each link-response is 16",
    "response-expects-last": "a link-response has the ackID before the expected one",
    "reset-is-answered": "a link-request of cmd 3 is answered too",
    "no-restart": "after a packet-retry no restart-from-retry is sent",
    "no-request": "after an error no link-request is sent",
    "request-once": "after a time-out of the link-request it is not sent again",
    "response-at-any-time": "a link-response is heard that was not asked for",
    "response-while-ok": "a link-response while the output is OK gives packets up",
    "impossible-response": "a link-response that cannot be is taken as one that can",
    "retry-frees": "a packet-retry gives up the packet",
    "any-retry": "a packet-retry of any packet is taken for one of the oldest",
    "acceptance-while-stopped": "packet-accepted frees while error-stopped",
    "lowest-first": "the lowest priority is sent first",
    "ackids-of-16": "the ackIDs that are sent count modulo 16",
    "expects-of-16": "the ackIDs that are expected count modulo 16",
    "window-of-32": "32 packets are outstanding",
    "no-credit": "the free buffers of the far port are not looked at",
    "credit-for-all-alike": "a packet of each priority starts with one free buffer",
    "cause-of-packets": "a wrong CRC of a packet has cause 2",
    "long-packets": "a packet of more than 276 bytes is not bad before it ends",
    "takes-the-lowest": "the layer above is given the lowest priority first",
    "keeps-15": "fifteen packets of a priority are kept to be sent, and no more",
    "one-crc-only": "a packet of more than 80 bytes has no second CRC",
    "small-ids-only": "IDs of 16 bits are sent as if they had 8",
    "status-frees": "a status symbol gives up the packets before its ackID",
    "turns-send-status": "a turn in which nothing waits sends a status symbol",
    "time-out-while-retry-stopped": "a time-out while retry-stopped is an error",
    "end-says-nothing": "the first half of a symbol that ends a packet is not heard",
    "next-forgives": "a bad packet is no error if the start of the next one ends it",
    "longest-of-272": "a packet of more than 272 bytes is bad",
    "responses-do-not-wrap": "a link-response with an ackID below the oldest cannot be",
    "failed-takes-nothing": "no packet is taken when the output has failed",
    "asks-each-turn": "each turn sends a link-request until it is answered",
}


def rest(value, bits, polynomial, width):
    """The remainder of so many bits, with as many zeros behind them as the remainder has."""
    value <<= width
    for place in range(bits + width - 1, width - 1, -1):
        if value >> place & 1:
            value ^= (1 << width | polynomial) << place - width
    return value


def crc16(text, register=0xFFFF):
    for byte in text:
        register ^= byte << 8
        for _ in range(8):
            register = (register << 1 ^ (0x1021 if register & 0x8000 else 0)) & 0xFFFF
    return register


def symbol_bytes(stype0, first, second, stype1, cmd):
    bits = (((stype0 << 5 | first) << 5 | second) << 3 | stype1) << 3 | cmd
    return (bits << 5 | rest(bits << 1 ^ 0x1F << 15, 20, 0b10101, 5)).to_bytes(3, "big")


def symbol(stype0, first, second, stype1=NOP, cmd=0):
    delimiter = "k7c" if stype1 < RESTART else "k1c"
    return [delimiter] + ["d%02x" % byte for byte in symbol_bytes(stype0, first, second, stype1, cmd)]


def prio_of(packet):
    return packet[1] >> 6


class Port:
    """One end of a link, that does not tell its free buffers."""

    def __init__(self, buffers, fault):
        self.buffers, self.fault = buffers, fault
        self.queues = [[], [], [], []]
        self.output, self.asked, self.first, self.sent = "ok", False, 0, []
        self.report = None
        self.input, self.expected, self.held = "ok", 0, []
        self.symbol, self.packet, self.skipping = None, None, False
        self.told, self.late = [], []

    def wrong(self, name):
        return self.fault == name

    # ---- packets and their CRCs

    def link_form(self, body):
        """The body with its CRC, one more behind byte 80 of a long one, and a pad."""
        form = body
        if len(body) > 80 and not self.wrong("one-crc-only"):
            form = body[:80] + crc16(body[:80]).to_bytes(2, "big") + body[80:]
        register = crc16(form[82:]) if len(body) > 80 and self.wrong("crc-is-preset-again") else crc16(form)
        form += register.to_bytes(2, "big")
        return form + bytes(-len(form) % 4)

    def carried(self, text):
        """The ackID and the packet that bytes carry, or None."""
        bare = bytes([text[0] & 3]) + text[1:]
        if len(bare) % 4:
            return None
        for pad in (0, 2):
            crcs = 2 if len(bare) - pad <= 82 else 4
            if len(bare) - pad - crcs < 4:
                continue
            body = bare[: len(bare) - pad - 2]
            body = body[:80] + body[82:] if crcs == 4 else body
            if self.link_form(body) == bare or self.wrong("ignores-packet-crc"):
                return text[0] >> 3, self.link_form(body)
        return None

    # ---- what is sent

    def status(self, stype1, cmd=0):
        return symbol(STATUS, self.expected, 31, stype1, cmd)

    def starts(self):
        """The packet that a turn starts, if one may start."""
        most = 32 if self.wrong("window-of-32") else 1 if self.wrong("one-outstanding") else 31
        order = (0, 1, 2, 3) if self.wrong("lowest-first") else (3, 2, 1, 0)
        waiting = [prio for prio in order if len(self.queues[prio]) > self.sent.count(prio)]
        if self.output != "ok" or not waiting or len(self.sent) >= most:
            return None
        prio = waiting[0]
        if self.report is not None and not self.wrong("no-credit"):
            free, base = self.report
            credit = max(0, free - (self.first + len(self.sent) - base) % 32)
            if credit <= (0 if self.wrong("credit-for-all-alike") else 3 - prio):
                return None
        return self.queues[prio][self.sent.count(prio)]

    def turn(self):
        """What a turn sends: of a slow port what waits, what it would send, or a status symbol, in this order."""
        if self.fault != "slow":
            return self.burst()
        burst = self.late.pop(0) if self.late else self.burst() or self.status(NOP)
        return ["kbc"] + burst + ["kbc", "kbc"]

    def burst(self):
        if self.output == "retry-stopped":
            self.output, self.sent = "ok", []
            return [] if self.wrong("no-restart") else self.status(RESTART)
        if self.output == "error-stopped" and (not self.asked or self.wrong("asks-each-turn")):
            self.asked = True
            return [] if self.wrong("no-request") else self.status(REQUEST, 4)
        packet = self.starts()
        if packet is None:
            return self.status(NOP) if self.wrong("turns-send-status") and self.output == "ok" else []
        ack = (self.first + len(self.sent)) % (16 if self.wrong("ackids-of-16") else 32)
        self.sent.append(prio_of(packet))
        text = bytes([ack << 3 | packet[0]]) + packet[1:]
        return self.status(START) + ["d%02x" % byte for byte in text] + self.status(END)

    def time_out(self):
        if self.output == "error-stopped" and self.asked and self.wrong("request-once"):
            return
        if self.output in ("ok", "error-stopped") or (
            self.output == "retry-stopped" and self.wrong("time-out-while-retry-stopped")
        ):
            self.output, self.asked = "error-stopped", False

    # ---- what is read

    def got_one(self, char):
        """What a character does is told in this order, whatever is done first."""
        before = len(self.told)
        self.got(char)
        self.told[before:] = sorted(self.told[before:], key=lambda told: ("hold", "free", "sent").index(told.split()[0]))

    def got(self, char):
        delimiter, idle = char in DELIMITERS, char in IDLES
        if char == "inv" and self.wrong("ignores-invalid"):
            return
        if idle and self.packet is not None and self.symbol is None and self.wrong("ignores-idle-in-packet"):
            return
        if delimiter or idle:
            if self.symbol is not None or (idle and self.packet is not None):
                self.bad(5)
            self.skipping, self.symbol = False, [char] if delimiter else None
        elif char[0] != "d":
            if self.symbol is not None or not self.skipping:
                self.bad(5)
            self.symbol, self.skipping = None, True
        elif self.symbol is not None:
            self.symbol.append(char)
            if len(self.symbol) == 4:
                self.read_symbol()
        elif self.packet is not None:
            self.packet.append(int(char[1:], 16))
            if len(self.packet) > (272 if self.wrong("longest-of-272") else 276) and not self.wrong("long-packets"):
                self.bad(31)
                self.skipping = True
        elif not self.skipping:
            self.bad(5)
            self.skipping = True

    def read_symbol(self):
        (delimiter, *text), self.symbol = self.symbol, None
        text = bytes(int(char[1:], 16) for char in text)
        bits = int.from_bytes(text, "big")
        fields = bits >> 21, bits >> 16 & 31, bits >> 11 & 31, bits >> 8 & 7, bits >> 5 & 7
        stype1 = fields[3]
        if symbol_bytes(*fields) != text and not self.wrong("ignores-symbol-crc"):
            self.skipping = True
            return self.bad(2)
        if stype1 > REQUEST if delimiter == "k7c" else stype1 < RESTART:
            self.skipping = True
            return self.bad(31)
        ends = [START, END]
        ends += [NOP] if self.wrong("nop-ends-a-packet") else [STOMP] if self.wrong("stomp-delivers") else []
        within = self.packet is not None
        if within and stype1 in ends and not (stype1 == START and self.is_forgiven()):
            self.read_packet(bytes(self.packet))
        if stype1 <= REQUEST or stype1 in ends:
            self.packet = [] if stype1 == START else None
        if not (within and stype1 in ends and self.wrong("end-says-nothing")):
            self.hear(fields[0], fields[1], fields[2])
        self.serve(stype1, fields[4])

    def is_forgiven(self):
        """Whether nothing becomes of the packet that the start of the next one ends."""
        bad = len(self.packet) < 8 or self.carried(bytes(self.packet)) is None
        return self.wrong("start-drops") or bad and self.wrong("next-forgives")

    def read_packet(self, text):
        self.packet = None
        if not 8 <= len(text) <= 276:
            return self.bad(31)
        found = self.carried(text)
        if found is None:
            return self.bad(2 if self.wrong("cause-of-packets") else 4)
        ack, packet = found
        if self.output == "failed" and self.wrong("failed-takes-nothing"):
            return
        if self.input != "ok" and not self.wrong("takes-while-" + self.input):
            return
        if ack != self.expected and not self.wrong("takes-any-ackid"):
            return self.refuse(1)
        free = self.buffers - len(self.held) - (1 if self.wrong("one-buffer-fewer") else 0)
        wanted = 0 if self.wrong("last-buffer-for-all") else 3 - prio_of(packet)
        if (free <= wanted and not self.wrong("takes-without-room")) or (
            self.wrong("retries-with-room") and not prio_of(packet)
        ):
            self.reply(RETRY, ack, 31)
            self.input = "retry-stopped"
            return
        self.held.append(packet)
        self.told.append("hold " + packet.hex())
        if not self.wrong("never-accepts"):
            self.reply(ACCEPTED, (ack + 1) % 32 if self.wrong("accepts-the-next") else ack, 31)
        self.expected = (self.expected + 1) % (16 if self.wrong("expects-of-16") else 32)

    def bad(self, cause):
        self.packet = None
        if self.input != "error-stopped" or self.wrong("refuses-twice"):
            self.refuse(cause)

    def refuse(self, cause):
        self.reply(NOT_ACCEPTED, self.expected, cause)
        self.input = "error-stopped"

    def reply(self, *fields):
        if self.fault == "slow":
            self.late.append(symbol(*fields))
        else:
            self.told.append(" ".join(["sent"] + symbol(*fields)))

    def hear(self, stype0, ack, second):
        """What a symbol does at the output half."""
        if stype0 in (ACCEPTED, RETRY, STATUS) and self.output != "failed":
            self.report = None if second == 31 else (second, (ack + (stype0 == ACCEPTED)) % 32)
        oldest = bool(self.sent) and ack == self.first
        if self.output == "ok" and stype0 == ACCEPTED and (oldest or self.sent and self.wrong("frees-on-any-acceptance")):
            self.free(1)
        elif self.output == "ok" and stype0 == RETRY and (oldest or self.sent and self.wrong("any-retry")):
            self.retried()
        elif self.output in ("ok", "retry-stopped") and stype0 in (ACCEPTED, RETRY, NOT_ACCEPTED):
            self.output, self.asked = "error-stopped", False
        elif self.output == "error-stopped" and stype0 == RESPONSE:
            self.hear_response(ack)
        elif self.output == "ok" and (stype0 == RESPONSE and self.wrong("response-while-ok")
                                      or stype0 == STATUS and self.wrong("status-frees")):
            self.free(min((ack - self.first) % 32, len(self.sent)))
        elif self.output == "error-stopped" and stype0 == ACCEPTED and oldest and self.wrong("acceptance-while-stopped"):
            self.free(1)

    def retried(self):
        self.output = "retry-stopped"
        if self.wrong("retry-frees"):
            self.free(1)
        if self.wrong("retried-go-last"):
            prio = self.sent[0]
            self.queues[prio].append(self.queues[prio].pop(0))

    def hear_response(self, ack):
        count = (ack - self.first) % 32
        if ack < self.first and self.wrong("responses-do-not-wrap"):
            count = 32
        if not self.asked and not self.wrong("response-at-any-time"):
            return
        if count > len(self.sent) and not self.wrong("impossible-response"):
            self.output, self.sent = "failed", []
        elif self.wrong("sends-accepted-again"):
            self.output, self.sent, self.first = "ok", [], ack
        else:
            self.free(min(count, len(self.sent)))
            self.output, self.sent, self.first = "ok", [], ack

    def free(self, count):
        for prio in self.sent[:count]:
            self.told.append("free " + self.queues[prio].pop(0).hex())
        self.sent, self.first = self.sent[count:], (self.first + count) % 32

    def serve(self, stype1, cmd):
        """What a symbol does at the input half."""
        if stype1 == RESTART and self.input == "retry-stopped":
            self.input = "ok"
        elif stype1 == RESTART and self.input == "ok" and not self.wrong("restart-at-any-time"):
            self.refuse(31)
        elif stype1 == REQUEST and (cmd == 4 or cmd == 3 and self.wrong("reset-is-answered")):
            self.answer_request()

    def answer_request(self):
        state = {"ok": 16, "retry-stopped": 4, "error-stopped": 5}[self.input]
        expected = (self.expected + 31) % 32 if self.wrong("response-expects-last") else self.expected
        if not (self.input == "ok" and self.wrong("request-not-answered")):
            self.reply(RESPONSE, expected, 16 if self.wrong("response-is-always-ok") else state)
        if not self.wrong("request-keeps-stopped"):
            self.input = "ok"

    # ---- lines

    def line(self, words):
        """The lines of the answer, without `ok`, of a line that is well spelled."""
        self.told = []
        if words[0] == "got":
            for char in words[1:]:
                self.got_one(char)
        elif words[0] == "turn":
            for _ in range(int(words[1])):
                sent = self.turn()
                if not sent:
                    break
                self.told.append(" ".join(["sent"] + sent))
        elif words[0] == "timeout":
            self.time_out()
        elif words[0] in ("send", "send16"):
            self.send(words[0] == "send16", *words[1:])
        elif words[0] == "take":
            order = min if self.wrong("takes-the-lowest") else max
            packet = order(self.held, key=prio_of, default=None)
            if packet is not None:
                self.held.remove(packet)
            self.told.append("empty" if packet is None else "taken " + packet.hex())
        else:
            self.tell_state()
        return self.told

    def send(self, large, prio, ftype, source, dest, text):
        width, kind = (2, 16) if large and not self.wrong("small-ids-only") else (1, 0)
        ids = b"".join((int(word) % 256**width).to_bytes(width, "big") for word in (dest, source))
        body = bytes([0, int(prio) << 6 | kind | int(ftype)]) + ids + bytes.fromhex("" if text == "-" else text)
        packet = self.link_form(body)
        room = len(self.queues[int(prio)]) < (15 if self.wrong("keeps-15") else 16)
        if room:
            self.queues[int(prio)].append(packet)
        self.told.append("queued " + packet.hex() if room else "full")

    def tell_state(self):
        waits = any(len(queue) > self.sent.count(prio) for prio, queue in enumerate(self.queues))
        self.told += [f"output {self.output}", f"input {self.input}", f"outstanding {len(self.sent)}",
                      f"waiting {'yes' if waits else 'no'}"]


def main():
    if sys.argv[1:] == ["faults"]:
        print(*FAULTS, sep="\n")
        return
    port = Port(int(sys.argv[1]) if len(sys.argv) > 1 else 8, sys.argv[2] if len(sys.argv) > 2 else None)
    for line in sys.stdin:
        for told in port.line(line.split()):
            print(told)
        print("ok", flush=True)


if __name__ == "__main__":
    main()
