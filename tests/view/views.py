#!/usr/bin/env python3
"""Compares each view of each example, and of each script in tests/replay, with what Python reads in the trace.

usage: tests/view/views.py PROGRAM
Each line that is printed is a fault; the status is 1 if there is one.
"""
import re
import struct
import subprocess
import sys
import xml.etree.ElementTree as xml
from collections import Counter
from pathlib import Path

sys.dont_write_bytecode = True
import trace  # noqa: E402

TOP = Path(__file__).resolve().parent.parent.parent
PROGRAM = Path(sys.argv[1]).resolve()
SVG = "{http://www.w3.org/2000/svg}"


def traces():
    """The name, the set-up lines and the trace of each run that is stored."""
    for script in sorted(TOP.glob("examples/*.script")):
        yield script.stem, trace.set_up_of(script.read_text()), script.with_suffix(".trace").read_text()
    for script in sorted(TOP.glob("tests/replay/*.in")):
        out = script.with_suffix(".out").read_text()
        if not out.startswith("refused") and len(out) < 300_000:
            yield script.stem, trace.set_up_of(script.read_text()), out


def shown(given, *words):
    done = subprocess.run([PROGRAM, *words], input=given.encode(), capture_output=True, timeout=120, check=False)
    if done.returncode or done.stderr:
        raise ValueError(f"status {done.returncode}: {done.stderr.decode()}")
    return done.stdout


class Run:
    """What a trace says, line by line."""

    def __init__(self, set_up, text):
        self.first = len(set_up) + 2
        self.text = text.splitlines()
        self.lines = [line.split(" ") for line in text.splitlines()]
        self.links = [line.split(" ")[1:] for line in set_up if line.startswith("link ")]
        self.peers = {a: b for a, b in [*self.links, *(link[::-1] for link in self.links)]}
        self.ports = [port for link in self.links for port in link]
        self.buffers = {words[1]: int(words[2]) for words in (line.split(" ") for line in set_up)
                        if words[0] == "buffers"}
        self.telling = {line.split(" ")[1] for line in set_up if line.startswith("credits ")}

    def made_ports(self):
        """A port at rest for each end of a link."""
        return {port: trace.Port(self.buffers.get(port, 8), port in self.telling) for port in self.ports}

    def of(self, word):
        """The port and the characters of each line with this word."""
        return [(words[1], words[2:]) for words in self.lines if words[0] == word]

    def events(self, word):
        """Each event of the characters of these lines, with its port."""
        readers = {port: trace.Reader() for port in self.ports}
        for port, chars in self.of(word):
            for char in chars:
                yield from ((port, event) for event in readers[port].take(char))


def check_words(run, given, text):
    """The words are those of examples/names.awk, which reads each line by itself; of a line that was got, the names."""
    awk = subprocess.run(["awk", "-f", TOP / "examples/names.awk"], input=text, text=True, capture_output=True, check=True)
    mine = shown(given, "words").decode().splitlines()
    if [line[:7] for line in mine] != [f"{run.first + at:6} " for at in range(len(mine))]:
        yield "words: other numbers"
    mine = [line[7:] for line in mine]
    if [line.split("  # ")[0] for line in mine] != text.splitlines():
        yield "words: the lines are not those of the trace"
    for one, other in zip(mine, awk.stdout.splitlines()):
        if not one.startswith(("got", "undetected")) and one.replace(", CRC good", "") != other:
            yield f"words: {one} is not {other}"
    readers = {port: trace.Reader() for port in run.ports}
    for line in (line for line in mine if line.startswith("got")):
        chars, _, words = line.partition("  # ")
        port, chars = chars.split(" ")[1], chars.split(" ")[2:]
        wanted = [name_of(event) for char in chars for event in readers[port].take(char)]
        found = [head_of(it) for it in re.split(r"; ", words) if it and it != ".."]
        if found != wanted:
            yield f"words: {line} has {found}, not {wanted}"


def check_flow(run, given):
    """There is a line for each transfer, and for each event of the script."""
    numbered = shown(given, "words", "--flow").decode().splitlines()
    lines = [line[7:] for line in numbered]
    for line in numbered:
        said = run.lines[int(line[:6]) - run.first]
        word = line[7:].split(" ")
        if not (line[7:] == " ".join(said) or word[2].strip(":") in said or word[2:4] == said[:2]
                or said[0] == "undetected"):
            yield f"flow: {line} is of {said}"
    sent = [line for line in lines if re.match(r"  \w+\.\d+ > ", line)]
    wanted = [event for _, event in run.events("sent") if not is_delimiter(event)]
    if len(sent) != len(wanted):
        yield f"flow: {len(sent)} transfers, not {len(wanted)}"
    if [line for line in lines if line.startswith("> ")] != [" ".join(w) for w in run.lines if w[0] == ">"]:
        yield "flow: other events"


def is_delimiter(event):
    return event[0] == "symbol" and event[1][0] == 4 and event[1][3] in (0, 2)


def check_counts(run, given):
    parts = shown(given, "counts").decode().split("\n\n")
    rows = rows_of(parts[0])
    counts = Counter()
    for port, chars in run.of("sent"):
        counts[port, 0] += len(chars)
    for port, event in run.events("sent"):
        counts[port, 1] += event[0] == "packet"
        if event[0] == "symbol":
            for at, is_it in ((3, event[1][0] == 0), (5, event[1][0] == 1), (6, event[1][0] == 2), (7, event[1][3] == 4)):
                counts[port, at] += is_it
    for words in run.lines:
        if words[0] in ("fire", "hold"):
            counts[words[1], 8 if words[0] == "fire" else 4] += 1
        for port, at, more in left_by(words):
            counts[port, at] += more
    for port in run.ports:
        mine, wanted = rows[port], [counts[port, at] for at in range(12)]
        if any(mine[at] != wanted[at] for at in (0, 1, 3, 4, 5, 6, 7, 8, 10, 11)):
            yield f"counts: {port} has {mine}, not {wanted}"
    if mine_total(parts[-1]) != total_of(run):
        yield f"counts: {parts[-1]} is not {total_of(run)}"
    yield from check_halves_of_counts(run, given, rows)


def rows_of(table):
    return {line.split()[0]: [int(it) for it in line.split()[1:]] for line in table.splitlines()[1:]}


def check_halves_of_counts(run, given, rows):
    """What two parts of a trace count is together what all of it counts; what is left is left at the end of a part."""
    middle, last = run.first + len(run.lines) // 2, run.first + len(run.lines)
    front, back = (rows_of(shown(given, "counts", "--lines", part).decode().split("\n\n")[0])
                   for part in (f"1-{middle}", f"{middle + 1}-{last}"))
    for port, row in rows.items():
        # a port without a link has a row only if something happened at it
        ahead, behind = (part.get(port, [0] * len(row)) for part in (front, back))
        if [a + b for a, b in zip(ahead[:9], behind[:9])] != row[:9] or behind[9:] != row[9:]:
            yield f"counts: {port} has {ahead} and {behind}, together {row}"
    for port in run.ports[:2]:
        if list(rows_of(shown(given, "counts", "--port", port).decode().split("\n\n")[0])) != [port]:
            yield f"counts: other rows with --port {port}"


def left_by(words):
    """What a line changes of what is to be sent (10) and received (11)."""
    word = words[0]
    if word in ("take", "leave"):
        return [(f"{words[1]}.0", 10, 1) if word == "take" else (f"{words[1]}.0", 11, -1)]
    if word in ("hold", "free", "drop"):
        return [(words[1], 11, 1) if word == "hold" else (words[1], 10 if word == "free" else 11, -1)]
    if word == "answer":
        return [(words[1], 11, -1), (words[1], 10, 1)]
    return [(words[1], 11, -1), (words[2], 10, 1)] if word == "move" else []


def names_port(words, ports):
    """Whether a line names one of these ports, or the endpoint of one."""
    names = {*ports, *(port[:-2] for port in ports if port.endswith(".0"))}
    if words[0] == ">":
        return len(words) > 2 and words[2] in names and words[1] not in ("run", "move")
    of_node = words[0] in ("take", "leave")
    at = 2 if words[0] == "undetected" else 1
    named = words[at : at + (2 if words[0] == "move" else 1)]
    return words[0] == "end" or any((f"{name}.0" if of_node else name) in ports for name in named)


def check_parts(run, given):
    """A part of a trace is these lines of the whole, and no others."""
    whole = shown(given, "words").decode().splitlines()
    first, last = run.first + len(whole) // 3, run.first + len(whole) // 2
    mine = shown(given, "words", "--lines", f"{first}-{last}").decode().splitlines()
    if mine != whole[first - run.first : last - run.first + 1]:
        yield "parts: other lines"
    flow = shown(given, "words", "--flow").decode().splitlines()
    mine = shown(given, "words", "--flow", "--lines", f"{first}-{last}").decode().splitlines()
    if mine != [line for line in flow if first <= int(line[:6]) <= last]:
        yield "parts: other lines of the flow"
    for a, b in run.links[:2]:
        for option, ports in (("--port", {a}), ("--port", {b}), ("--link", {a, b})):
            mine = shown(given, "words", option, a if a in ports else b).decode().splitlines()
            wanted = [line for line, words in zip(whole, run.lines) if names_port(words, ports)]
            if mine != wanted:
                yield f"parts: {option} {ports}: {len(mine)} lines, not {len(wanted)}"
    if run.links:
        yield from check_part_of_ladder(run, given, first, last)


def check_part_of_ladder(run, given, first, last):
    """A part of a ladder has the lifelines of its link, and the arrows of its lines."""
    link = run.links[0]
    root = xml.fromstring(shown(given, "ladder", "--lines", f"{first}-{last}", "--link", link[1]))
    names = [text.text for text in root.findall(f"{SVG}text") if text.get("class") == "port"]
    if names != link:
        yield f"ladder: lifelines of {names}, not of {link}"
    lines = run.lines[: last - run.first + 1]
    ends = Counter()
    readers = {port: trace.Reader() for port in run.ports}
    for number, words in enumerate(lines, run.first):
        for event in (event for char in words[2:] for event in readers[words[1]].take(char)) if words[0] == "sent" else ():
            if words[1] in link and number >= first and not is_delimiter(event):
                ends[name_of(event)] += 1
    arrows = [group for group in root.findall(f"{SVG}g") if "arrow" in group.get("class").split(" ")]
    mine = Counter(head_of(group.find(f"{SVG}text").text) for group in arrows)
    if ends - mine:
        yield f"ladder: {ends - mine} too little in a part"


def mine_total(line):
    return [int(it) for it in re.findall(r"\d+", line.split(";")[0])]


def total_of(run):
    word = Counter(words[0] for words in run.lines)
    left = word["take"] - word["leave"] - word["drop"]
    return [word["take"], word["answer"], word["leave"], word["drop"], left]


def check_ladder(run, given):
    """Each packet and each symbol that only begins or ends none is one arrow, in its order; each event is a band."""
    try:
        picture = shown(given, "ladder")
    except ValueError as refusal:
        yield from check_high(run, given, str(refusal))
        return
    root = xml.fromstring(picture)
    lives = {line.get("x1"): name.text for line, name in zip(root.findall(f"{SVG}line"), root.findall(f"{SVG}text"))}
    arrows = [group for group in root.findall(f"{SVG}g") if "arrow" in group.get("class").split(" ")]
    mine = Counter((lives[group.find(f"{SVG}line").get("x1")], head_of(group.find(f"{SVG}text").text)) for group in arrows)
    wanted = Counter((port, name_of(event)) for port, event in run.events("sent") if not is_delimiter(event))
    if mine != wanted:
        yield f"ladder: {mine - wanted} too much, {wanted - mine} too little"
    bands = [text.text.split(" ", 1)[1].strip() for text in root.findall(f"{SVG}text") if text.get("class") == "event"]
    wanted = [" ".join(words[1:]) for words in run.lines if words[0] == ">"]
    if [band.split(": ")[0][:80] for band in bands] != [line[:80] for line in wanted]:
        yield "ladder: the bands are not the events"
    if list(lives.values()) != run.ports:
        yield "ladder: other lifelines"
    yield from check_marks(run, root)


def check_high(run, given, refusal):
    """A ladder that would be too high is refused with the lines that would do, which are as many as can be."""
    told = re.fullmatch(r"status 2: rio_view: the ladder would be higher than 32767 pixels, and few programs open it; "
                        r"--lines (\d+)-(\d+) would do\n", refusal)
    if not told:
        yield f"ladder: {refusal}"
        return
    first, last = map(int, told.groups())
    high = int(xml.fromstring(shown(given, "ladder", "--lines", f"{first}-{last}")).get("height"))
    more = subprocess.run([PROGRAM, "ladder", "--lines", f"{first}-{last + 1}"], input=given.encode(), capture_output=True,
                          timeout=120, check=False)
    if high > 32767 or more.returncode != 2:
        yield f"ladder: {high} pixels, status {more.returncode} with a line more"


def check_range(run, given):
    """A part of a ladder has the bands of these events, and the arrows of their lines."""
    if "would do" in subprocess.run([PROGRAM, "ladder"], input=given.encode(), capture_output=True, check=False).stderr.decode():
        return
    events = [" ".join(words[1:]) for words in run.lines if words[0] == ">"]
    last = min(3, len(events))
    root = xml.fromstring(shown(given, "ladder", "--from", "2", "--to", str(last)))
    bands = [text.text.split(" ", 1) for text in root.findall(f"{SVG}text") if text.get("class") == "event"]
    if [number for number, _ in bands] != [str(number) for number in range(2, last + 1)]:
        yield f"ladder: from 2 to {last} there are {bands}"


def check_marks(run, root):
    """Each hold, free, take and leave at a port with a link, each time-out and the undetected end is a mark."""
    marks = Counter(group.find(f"{SVG}text").text.split(":")[0] for group in root.findall(f"{SVG}g")
                    if "mark" in group.get("class").split(" "))
    wanted = Counter()
    for words in run.lines:
        port = words[1] if words[0] in ("hold", "free", "fire", "drop", "answer") else f"{words[-2]}.0" if len(words) > 1 else ""
        if words[0] in ("hold", "free", "take", "leave", "fire", "drop", "answer") and port in run.ports:
            wanted[{"fire": "time-out"}.get(words[0], words[0])] += 1
        wanted["undetected"] += words[0] == "undetected"
    for word in ("hold", "free", "take", "leave", "time-out", "drop", "answer", "undetected"):
        if marks[word] != wanted[word]:
            yield f"ladder: {marks[word]} marks {word}, not {wanted[word]}"


def head_of(label):
    """What the beginning of a label names: a packet with its ackID, or a symbol."""
    if label.startswith("packet ") and not label.startswith("packet, "):
        return label.split(":")[0]
    return re.split(r",? (?:\d|input|reset|reserved|and)|, ", label)[0]


def name_of(event):
    if event[0] == "packet":
        return f"packet {event[1]}"
    if event[0] == "bad":
        return {2: "a symbol with a bad CRC", 4: "a packet with a bad CRC", 5: "a bad character", 31: "a general error"}[event[1]]
    s0, _, _, s1, _ = event[1]
    return trace.RECEIVERS.get(s1, "reserved") if s1 != 7 else trace.SENDERS.get(s0, "reserved")


def check_wave(run, given):
    """The changes of each wire give the characters of its lines again."""
    names, scope, wires, values, time, moments = {}, [], {}, {}, 0, {}
    for line in shown(given, "wave").decode().splitlines():
        words = line.split(" ")
        if words[0] == "$scope":
            scope.append(words[2])
        elif words[0] == "$upscope":
            scope.pop()
        elif words[0] == "$var":
            names[words[3]] = (*scope[1:], words[4])
        elif line.startswith("#"):
            close(time, int(line[1:]), values, moments)
            time = int(line[1:])
        elif line[0] in "01xz":
            values[names[line[1:]]] = line[0]
        elif line[0] in "bs" and len(words) == 2:
            values[names[words[1]]] = words[0][1:]
    for word, side in (("sent", "sent"), ("got", "got")):
        for port in run.ports:
            key = port.replace(".", "_")
            wires[port] = [char for char in moments.get((key, side), []) if char is not None]
            wanted = [char for at, chars in run.of(word) if at == port for char in chars]
            if wires[port] != wanted:
                yield f"wave: {port} {word}: {wires[port][:9]} is not {wanted[:9]}"


def close(begin, end, values, moments):
    """Notes what is on each wire from a moment on."""
    for key, side in {(name[0], name[1]) for name in values if len(name) == 3}:
        k, byte = values.get((key, side, "k")), values.get((key, side, "byte"))
        char = None if k == "z" else "inv" if k == "x" else ("k" if k == "1" else "d") + f"{int(byte, 2):02x}"
        moments.setdefault((key, side), []).extend([char] * (end - begin))


def check_states(run, given):
    """At each event the states of the halves of each port, and what is outstanding, are those of the step tables."""
    ports = run.made_ports()
    readers = {(word, port): trace.Reader() for word in ("sent", "got") for port in run.ports}
    mine = states_of_wave(shown(given, "wave").decode())
    for number, words in enumerate(run.lines, run.first):
        port = ports.get(words[1]) if len(words) > 1 else None
        if words[0] == ">":
            for name, it in ports.items():
                found = tuple(mine[number][name.replace(".", "_"), signal] for signal in ("output", "input", "outstanding"))
                wanted = (it.output, it.input, f"{it.outstanding:08b}")
                if "failed" not in wanted and found != wanted:
                    yield f"wave: {name} is {found} before line {number}, not {wanted}"
        follow(ports, readers, words)


def states_of_wave(text):
    """The values of the signals of each port at each line of the trace, before the line changes one."""
    names, scope, values, found = {}, [], {}, {}
    for line in text.splitlines():
        words = line.split(" ")
        if words[0] == "$scope":
            scope.append(words[2])
        elif words[0] == "$upscope":
            scope.pop()
        elif words[0] == "$var":
            names[words[3]] = (*scope[1:], words[4])
        elif line[0] in "bs" and len(words) == 2:
            if names[words[1]] == ("line",):
                found[int(words[0][1:], 2)] = dict(values)
            values[names[words[1]]] = words[0][1:]
    return found


def check_packets(run, given):
    data, at, found, names = shown(given, "packets"), 0, [], []
    while at < len(data):
        kind, length = struct.unpack_from("<II", data, at)
        if struct.unpack_from("<I", data, at + length - 4)[0] != length or length % 4:
            yield "packets: a block has two lengths"
            return
        body = data[at + 8 : at + length - 4]
        if kind == 1:
            names.append(body[12 : 12 + struct.unpack_from("<H", body, 10)[0]].decode())
        elif kind == 6:
            found.append(frame_of(body, names))
        at += length
    if found != [it for number, words in enumerate(run.lines, run.first) for it in packets_of(number, words)]:
        yield "packets: they are not those of the trace"
    if run.ports:
        some = shown(given, "packets", "--port", run.ports[0])
        heads = data[: data.index(struct.pack("<I", 6))] if found else data
        if not some.startswith(heads) or len(some) > len(data):
            yield "packets: other interfaces with --port"


def frame_of(body, names):
    """The number of the line, the port, the word, and the bytes of the packet or symbol."""
    place, _, when, count = struct.unpack_from("<IIII", body)
    frame, behind = body[20 : 20 + count], 20 + count + -count % 4
    comment = body[behind + 4 :][: struct.unpack_from("<H", body, behind + 2)[0]].decode()
    words = frame[2 : 2 + frame[1]].decode()
    is_symbol = words.startswith(("retry", "refuse"))
    word = words.split(" ")[0].strip(",") if words == comment and frame[0] == is_symbol else f"{words} is not {comment}"
    return when, names[place], word, frame[2 + frame[1] :].hex()


def packets_of(number, words):
    """The packets and symbols that a line shows: its number, the port, the word and the bytes."""
    if words[0] in ("take", "leave"):
        return [(number, f"{words[1]}.0", words[0], words[2])]
    if words[0] in ("hold", "free", "drop", "move"):
        return [(number, words[1], words[0], words[-1])]
    if words[0] == "sent":
        return [(number, words[1], {1: "retry", 2: "refuse"}[s0], form) for s0, form in answers_of(words[2:])]
    return [(number, words[1], "answer", form) for form in words[2:]] if words[0] == "answer" else []


def answers_of(chars):
    """The packet-retry and packet-not-accepted symbols among whole symbols of a line, with their bytes."""
    reader = trace.Reader()
    for at, char in enumerate(chars):
        for event in reader.take(char):
            if event[0] == "symbol" and event[1][0] in (1, 2):
                yield event[1][0], "".join(it[1:] for it in chars[at - 3 : at + 1])


def listed_entries():
    """The words of each entry, in the order of their numbers, as the page of the crate lists them."""
    page = (TOP / "crates/link_entries/README.md").read_text()
    rows = re.findall(r"^\| (\d+) \| (.*?)(?: \(beside .*\))? \|$", page, re.MULTILINE)
    if [int(number) for number, _ in rows] != list(range(len(rows))):
        raise ValueError("the numbers of crates/link_entries/README.md do not count from 0")
    return [words for _, words in rows]


def check_coverage(run, given):
    lines = shown(given, "coverage").decode().splitlines()
    if [line[10:] for line in lines[:-1]] != listed_entries():
        yield "coverage: other lines than those of crates/link_entries/README.md"
    mine = Counter({line[10:]: int(line[:8]) for line in lines[:-1]})
    wanted = Counter(met_by(run))
    if +mine != +wanted:
        yield f"coverage: {mine - wanted} too much, {wanted - mine} too little"


def met_by(run):
    """The entries that the ports of a trace met."""
    ports = run.made_ports()
    readers = {(word, port): trace.Reader() for word in ("sent", "got") for port in run.ports}
    for words in run.lines:
        follow(ports, readers, words)
    heard = [reader.met for (word, _), reader in readers.items() if word == "got"]
    return [entry for met in [*(port.met for port in ports.values()), *heard] for entry in met]


def follow(ports, readers, words):
    """The ports do what a line says."""
    port = ports.get(words[1]) if len(words) > 1 else None
    if words[0] in (">", "end", "undetected"):
        for it in ports.values():
            it.rest()
        if words[1:2] == ["pump"] and words[2] in ports:
            ports[words[2]].pumped = int(words[3])
    elif words[0] in ("sent", "got"):
        reader = readers[words[0], words[1]]
        for event in (event for char in words[2:] for event in reader.take(char)):
            (sent if words[0] == "sent" else got)(port, event)
    elif words[0] == "fire":
        port.time_out()
    else:
        step(ports, words)


def step(ports, words):
    """The ports give and take the packets of a step; what goes on by a move or an answer comes to be sent."""
    if words[0] == "take":
        comes, goes, form = f"{words[1]}.0", None, words[2]
    elif words[0] == "leave":
        comes, goes, form = None, f"{words[1]}.0", words[2]
    elif words[0] == "move":
        comes, goes, form = words[2], words[1], words[3]
    elif words[0] in ("drop", "answer"):
        comes, goes, form = words[1] if words[0] == "answer" else None, words[1], words[-1]
    else:
        return
    if goes in ports:
        ports[goes].held -= 1
    if comes in ports:
        ports[comes].put(int(form[2:4], 16) >> 6)


def sent(port, event):
    if event[0] == "packet":
        port.turn("a packet", event[2][1] >> 6)
    elif event[0] == "symbol" and event[1][3] in (3, 4):
        port.turn("restart-from-retry" if event[1][3] == 3 else "link-request")
    elif event[0] == "symbol" and event[1][0] == 4 and event[1][3] == 7:
        port.tell()


def got(port, event):
    if event[0] == "packet":
        port.packet(event[1], event[2][1] >> 6)
    elif event[0] == "bad":
        port.bad()
    else:
        port.symbol(event[1])


def check_map(set_up, given):
    """A map has a box for each node and a line for each link, in both forms, with its names and ports."""
    nodes = [line.split(" ")[1] for line in set_up if line.startswith(("endpoint ", "switch "))]
    links = [line.split(" ")[1:] for line in set_up if line.startswith("link ")]
    root = xml.fromstring(shown("".join(f"{line}\n" for line in set_up), "map", "--tables"))
    boxes = [group for group in root.iter(f"{SVG}g") if group.get("class") in ("endpoint", "switch")]
    names = [text.text for group in boxes for text in group.findall(f"{SVG}text") if text.get("class") == "name"]
    if names != nodes or len(root.findall(f"{SVG}path")) != len(links):
        yield f"map: boxes {names}, not {nodes}; {len(root.findall(f'{SVG}path'))} links, not {len(links)}"
    edges = re.findall(r'"(\w+)" -- "(\w+)" \[taillabel="(\d+)", headlabel="(\d+)"\]', shown(given, "map", "--dot").decode())
    if [[f"{a}.{p}", f"{b}.{q}"] for a, b, p, q in edges] != links:
        yield f"map: edges {edges}, not {links}"


def main():
    faults = 0
    for name, set_up, text in traces():
        given = "".join(f"{line}\n" for line in set_up) + "---\n" + text
        run = Run(set_up, text)
        for check in (lambda: check_words(run, given, text), lambda: check_flow(run, given),
                      lambda: check_counts(run, given), lambda: check_ladder(run, given),
                      lambda: check_range(run, given), lambda: check_wave(run, given), lambda: check_packets(run, given),
                      lambda: check_coverage(run, given), lambda: check_parts(run, given),
                      lambda: check_states(run, given), lambda: check_map(set_up, given)):
            try:
                told = list(check())
            except (ValueError, KeyError, xml.ParseError, subprocess.SubprocessError) as fault:
                told = [f"{type(fault).__name__}: {fault}"]
            for line in told:
                print(f"{name}: {line}")
                faults += 1
    return faults > 0


sys.exit(main())
