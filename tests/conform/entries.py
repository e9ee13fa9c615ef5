#!/usr/bin/env python3
"""Which entries of the step tables each scenario meets, by the plain port of port.py and by rio_view.

usage: entries.py FOLDER [LOGS RIO_VIEW]
    FOLDER: has the scenarios, and `entries`, the words of each entry behind its number
    LOGS: a folder with a log of each scenario as rio_port --log A B writes it, in the order of the scenarios, by numbers from 1

It names each entry that no scenario names, each row of a scenario that it does not meet, each entry of which rio_view says
otherwise, or in other words, and each page that does not have the heading that a scenario says, and ends with status 1 if
there is any. Numbers that rio_view does not have are not looked at there, nor turns that send nothing: a trace does not
show them.
"""
import re
import subprocess
import sys
from pathlib import Path

sys.dont_write_bytecode = True
from port import ACCEPTED, DELIMITERS, END, IDLES, NOT_ACCEPTED, REQUEST, RESPONSE, RESTART, RETRY  # noqa: E402
from port import START, STATUS, STOMP, Port, prio_of, symbol, symbol_bytes  # noqa: E402

TOP = Path(__file__).resolve().parent.parent.parent
SENDS_NOTHING = {43, 44, 45, 49, 50}
FIRST_HALF = {"accepted": ACCEPTED, "retry": RETRY, "not-accepted": NOT_ACCEPTED, "status": STATUS, "response": RESPONSE}
SECOND_HALF = {"start": (START, 0), "stomp": (STOMP, 0), "end": (END, 0), "restart": (RESTART, 0), "request": (REQUEST, 4),
               "reset": (REQUEST, 3), "multicast": (5, 0)}
OUT_STATES = ("ok", "retry-stopped", "error-stopped", "failed")
IN_STATES = ("ok", "retry-stopped", "error-stopped")


class NotingPort(Port):
    """A right port that notes the entries which it meets."""

    def __init__(self):
        super().__init__(8, None)
        self.met = set()

    def meet(self, *entries):
        self.met.update(entry for entry in entries if entry is not None)

    def text(self):
        return 1 if self.skipping else 0 if self.packet is None else 2

    # ---- what is read: the columns are between packets, skipped, within a packet

    def got(self, char):
        delimiter, idle, data = char in DELIMITERS, char in IDLES, char[0] == "d"
        if self.symbol is not None:
            self.meet(None if data else 57 if delimiter else 58 if idle else 59)
        elif delimiter:
            self.meet((None, 74, None)[self.text()])
        elif idle:
            self.meet((72, 74, 62)[self.text()])
        elif not data:
            self.meet((61, 73, 63)[self.text()])
        else:
            self.meet((60, 73, 64 if len(self.packet or "") == 276 else None)[self.text()])
        super().got(char)

    def read_symbol(self):
        text = bytes(int(char[1:], 16) for char in self.symbol[1:])
        bits = int.from_bytes(text, "big")
        fields = bits >> 21, bits >> 16 & 31, bits >> 11 & 31, bits >> 8 & 7, bits >> 5 & 7
        stype1 = fields[3]
        if symbol_bytes(*fields) != text:
            self.meet(55)
        elif stype1 > REQUEST if self.symbol[0] == "k7c" else stype1 < RESTART:
            self.meet(56)
        elif self.text() == 2:
            self.end_packet(stype1)
        elif self.text() == 0 and stype1 == END:
            self.meet(71)
        super().read_symbol()

    def end_packet(self, stype1):
        if stype1 in (START, END):
            text = bytes(self.packet)
            self.meet(65 if len(text) < 8 else 66 if self.carried(text) is None else None)
        self.meet({START: 67, END: None, STOMP: 68, RESTART: 69, REQUEST: 69}.get(stype1, 70))

    # ---- the input half

    def bad(self, cause):
        self.meet((30, 34, 38)[IN_STATES.index(self.input)])
        super().bad(cause)

    def read_packet(self, text):
        found = self.carried(text) if len(text) >= 8 else None
        if found is not None:
            ack, packet = found
            if self.input != "ok":
                self.meet(33 if self.input == "retry-stopped" else 37)
            elif ack != self.expected:
                self.meet(29)
            elif self.buffers - len(self.held) <= 3 - prio_of(packet):
                self.meet(28)
            else:
                self.meet(27, 54 if ack == 31 else None)
        super().read_packet(text)

    def serve(self, stype1, cmd):
        state = IN_STATES.index(self.input)
        if stype1 == RESTART:
            self.meet((31, 35, 39)[state])
        elif stype1 == REQUEST:
            self.meet((32, 36, 40)[state] if cmd == 4 else 42)
        else:
            self.meet(41)
        super().serve(stype1, cmd)

    # ---- the output half

    def hear(self, stype0, ack, second):
        oldest = bool(self.sent) and ack == self.first
        column = {ACCEPTED: 0, RETRY: 1, NOT_ACCEPTED: 2, RESPONSE: 3}.get(stype0, 4)
        if self.output == "ok":
            self.meet((0 if oldest else 1, 2 if oldest else 3, 4, 5, 6)[column], 51 if column == 0 and oldest and ack == 31 else None)
        elif self.output == "retry-stopped":
            self.meet(7 + column)
        elif self.output == "failed":
            self.meet(19)
        elif column == 3 and self.asked:
            count = (ack - self.first) % 32
            self.meet(16 if count <= len(self.sent) else 17, 52 if 0 < count <= len(self.sent) else None)
        else:
            self.meet((12, 13, 14, 15, 18)[column])
        super().hear(stype0, ack, second)

    def waiting(self):
        return [prio for prio in (3, 2, 1, 0) if len(self.queues[prio]) > self.sent.count(prio)]

    def burst(self):
        output, asked = self.output, self.asked
        chars = super().burst()
        if output != "ok":
            self.meet({"retry-stopped": 21, "error-stopped": 49 if asked else 22, "failed": 50}[output])
        elif chars:
            overtakes = self.waiting() and self.waiting()[0] < self.sent[-1]
            self.meet(20, 46 if self.report is not None else None, 47 if overtakes else None)
        else:
            self.meet(43 if not self.waiting() else 44 if len(self.sent) == 31 else 45)
        return chars

    def time_out(self):
        self.meet((23, 25, 24, 26)[OUT_STATES.index(self.output)], 53 if self.output == "ok" and not self.sent else None)
        super().time_out()


def link_bytes(words):
    """The bytes of a packet: its ackID, and the line by which a port is given it."""
    maker = Port(8, None)
    maker.send(words[1] == "send16", *words[2:])
    form = next(queue[0] for queue in maker.queues if queue)
    return bytes([int(words[0]) << 3 | form[0]]) + form[1:]


def data_chars(text):
    return ["d%02x" % byte for byte in text]


def asked_line(line):
    """The line that a device is asked for a line of a scenario, as words."""
    word, *words = line.split()
    parameters = [int(number) for number in words[:2]] if word in {*FIRST_HALF, *SECOND_HALF} else []
    first, second = parameters + [0, 31][len(parameters):]
    if word in FIRST_HALF:
        return ["got", *symbol(FIRST_HALF[word], first, second)]
    if word in SECOND_HALF:
        return ["got", *symbol(STATUS, first, second, *SECOND_HALF[word])]
    if word == "data":
        return ["got", *data_chars(bytes.fromhex(words[0]))]
    if word == "part":
        return ["got", *data_chars(link_bytes(words[2:])[int(words[0]): int(words[1])])]
    if word in ("packet", "spoiled"):
        text = bytearray(link_bytes(words))
        text[4] ^= word == "spoiled"
        return ["got", *symbol(STATUS, 0, 31, START), *data_chars(text), *symbol(STATUS, 0, 31, END)]
    return [word, *words]


def scenarios(folder):
    """The name, the rows and the lines of each scenario, in the order in which they are played."""
    found = []
    for path in sorted(folder.glob("*.scenario")):
        for line in path.read_text().splitlines():
            word, _, rest = line.strip().removeprefix("own ").partition(" ")
            if word == "scenario":
                found.append((rest, [], []))
            elif word == "rows":
                found[-1][1].extend(int(number) for number in rest.split())
            elif word and word[0] != "#" and word not in ("rule", "page", "outstanding"):
                found[-1][2].append(f"{word} {rest}")
    return found


def wrong_pages(folder):
    """The lines `page` that name no heading of a page."""
    for path in sorted(folder.glob("*.scenario")):
        for line in path.read_text().splitlines():
            page = re.fullmatch(r'page (\S+), "(.*)"', line)
            headings = (TOP / page[1]).read_text().splitlines() if page else []
            if line.startswith("page ") and not any(text.lstrip("#") == " " + page[2] for text in headings):
                yield line


def met_by_plain_port(lines):
    port = NotingPort()
    for line in lines:
        port.line(asked_line(line))
    return port.met


def coverage(log, view):
    """How often each entry is met in a log by the port B, and its words, in their order."""
    text = subprocess.run([view, "coverage", "--port", "B.0"], input=log, capture_output=True, check=True).stdout.decode()
    return [(int(line.split()[0]), line.strip().split("  ", 1)[1]) for line in text.splitlines()[:-1]]


def faults(folder, logs, view):
    words = dict(line.split(" ", 1) for line in (folder / "entries").read_text().splitlines() if line[0] != "#")
    words = {int(number): text for number, text in words.items()}
    played = scenarios(folder)
    yield from (f"there is no {line}" for line in wrong_pages(folder))
    for entry in words.keys() - {row for _, rows, _ in played for row in rows}:
        yield f"no scenario names {entry}"
    for count, (name, rows, lines) in enumerate(played, 1):
        met = met_by_plain_port(lines)
        for row in set(rows) - met:
            yield f"{name} does not meet {row}"
        if logs is None:
            continue
        told = coverage((logs / str(count)).read_bytes(), view)
        for entry in {entry for entry, (times, _) in enumerate(told) if times} ^ met:
            if entry < len(told) and entry not in SENDS_NOTHING:
                yield f"rio_view and the plain port differ in whether {name} meets {entry}"
        for entry, (_, text) in enumerate(told):
            if count == 1 and words.get(entry, text) != text:
                yield f"{entry} is: {text}"


def main():
    folder, logs, view = (*sys.argv[1:], None, None)[:3]
    found = list(faults(Path(folder), logs and Path(logs), view))
    print(*found, sep="\n")
    sys.exit(bool(found))


if __name__ == "__main__":
    main()
