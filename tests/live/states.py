"""Each state of a port against whatever may come from its peer: what it tells, its next states, and what it sends next.

usage: states.py PROGRAM    PROGRAM: rio_port. The status is 0 if all is as wanted. The last line counts the trials.

The tables are those of docs/link.md, and of RapidIO Interconnect Specification 1.3, Part 6, by hand: a row for what
comes, a column for a state, and `=` where nothing happens. Each state of the output half is tried beside each of the
input half, and each stype0 with each stype1 in one symbol.
"""
import itertools
import subprocess
import sys
from concurrent.futures import ThreadPoolExecutor

from streams import equal

# The output half has sent a packet with ackID 0, but for `idle`; `waiting` has to send it. Numbers are ackIDs.
OUTPUT = """
comes          | idle          | sending       | retry-stopped | error-stopped | asked      | failed
accepted 0     | error-stopped | idle free     | error-stopped | =             | =          | =
accepted 9     | error-stopped | error-stopped | error-stopped | =             | =          | =
retry 0        | error-stopped | retry-stopped | error-stopped | =             | =          | =
retry 9        | error-stopped | error-stopped | error-stopped | =             | =          | =
not-accepted 0 | error-stopped | error-stopped | error-stopped | =             | =          | =
response 0     | =             | =             | =             | =             | waiting    | =
response 1     | =             | =             | =             | =             | idle free  | =
response 9     | =             | =             | =             | =             | failed     | =
stype0-3 0     | =             | =             | =             | =             | =          | =
status 0       | =             | =             | =             | =             | =          | =
stype0-5 0     | =             | =             | =             | =             | =          | =
stype0-7 0     | =             | =             | =             | =             | =          | =
"""
STYPE0 = {"accepted": 0, "retry": 1, "not-accepted": 2, "stype0-3": 3, "status": 4, "stype0-5": 5, "response": 6,
          "stype0-7": 7}

# The input half holds a packet of the lowest priority, and expects ackID 1. A symbol has its stype1 and cmd, and behind
# an answer stands the cause or the port status.
INPUT = """
comes          | ok                            | retry-stopped                 | error-stopped
symbol 0 0     | =                             | =                             | =
symbol 1 0     | =                             | =                             | =
symbol 2 0     | =                             | =                             | =
symbol 3 0     | error-stopped not-accepted 31 | ok                            | =
symbol 4 4     | ok response 16                | ok response 4                 | ok response 5
symbol 4 3     | =                             | =                             | =
symbol 5 0     | =                             | =                             | =
symbol 6 0     | =                             | =                             | =
symbol 7 0     | =                             | =                             | =
"""
# With room: the packet that is held was taken before.
COMES = """
comes              | ok                            | retry-stopped                 | error-stopped
packet 1 room      | ok accepted 31                | =                             | =
packet 1 no-room   | retry-stopped retry 31        | =                             | =
packet 9 room      | error-stopped not-accepted 1  | =                             | =
packet 9 no-room   | error-stopped not-accepted 1  | =                             | =
bad symbol         | error-stopped not-accepted 2  | error-stopped not-accepted 2  | =
bad packet         | error-stopped not-accepted 4  | error-stopped not-accepted 4  | =
bad character      | error-stopped not-accepted 5  | error-stopped not-accepted 5  | =
bad length         | error-stopped not-accepted 31 | error-stopped not-accepted 31 | =
"""
# What a turn sends, and the state behind it; and the state behind a time-out. A second packet is there to be sent.
TURNS = """
comes    | idle          | sending       | retry-stopped | error-stopped | asked         | failed
turn 1   | packet 0      | packet 1      | restart       | request       | nothing       | nothing
timeout  | error-stopped | error-stopped | retry-stopped | error-stopped | error-stopped | failed
"""
PACKET = "000f0201deb20000"
BODY = ["d" + PACKET[at : at + 2] for at in range(2, len(PACKET), 2)]


def table(text):
    """The entry of each row and column."""
    head, *rows = ([word.strip() for word in line.split("|")] for line in text.strip().splitlines())
    return {(row[0], state): entry for row in rows for state, entry in zip(head[1:], row[1:])}


def symbol(stype0, first, second, stype1, cmd):
    """The characters of a symbol. Its CRC is a remainder of twenty bits, of which the five foremost are inverted."""
    bits = (((stype0 << 5 | first) << 5 | second) << 3 | stype1) << 3 | cmd
    rest = (bits << 1 ^ 0x1F << 15) << 5
    for place in range(24, 4, -1):
        if rest >> place & 1:
            rest ^= 0b110101 << place - 5
    data = (bits << 5 | rest).to_bytes(3, "big")
    return " ".join(["k7c" if stype1 < 3 else "k1c"] + ["d%02x" % byte for byte in data])


def status(expected, stype1, cmd=0):
    """A symbol that tells the peer something, of a port that expects this ackID."""
    return symbol(4, expected, 31, stype1, cmd)


def packet(expected, ack, body=None):
    """A packet, from a port that expects this ackID."""
    return " ".join([status(expected, 0), "d%02x" % (ack << 3)] + (body or BODY) + [status(expected, 2)])


SEND = "send 0 15 1 2 -"
SENDING = [SEND, "turn 1"]
OUTPUTS = {
    "idle": [],
    "sending": SENDING,
    "retry-stopped": SENDING + ["got " + symbol(1, 0, 31, 7, 0)],
    "error-stopped": SENDING + ["timeout"],
    "asked": SENDING + ["timeout", "turn 1"],
    "failed": SENDING + ["timeout", "turn 1", "got " + symbol(6, 9, 16, 7, 0)],
}
INPUTS = {
    "ok": ["got " + packet(0, 0)],
    "retry-stopped": ["got " + packet(0, 0), "got " + packet(0, 1)],
    "error-stopped": ["got " + packet(0, 0), "got inv"],
}
# What is shown of a state of the output half.
WORDS = {"idle": "ok", "sending": "ok", "waiting": "ok", "asked": "error-stopped"}
BAD = {
    "symbol": "k1c d00 d00 d00",
    "packet": packet(0, 1, BODY[:-1] + ["d01"]),
    "character": "inv",
    "length": packet(0, 1, BODY[:3]),
}


def answers(program, lines):
    """The lines of each answer of a new port of four buffers, without the line that ends it."""
    text = "".join(line + "\n" for line in lines)
    ran = subprocess.run([program, "4"], input=text.encode(), capture_output=True, timeout=60)
    equal("status", ran.returncode, 0)
    found = [[]]
    for line in ran.stdout.decode().splitlines():
        if line == "ok":
            found.append([])
        else:
            found[-1].append(line)
    return found[:-1]


def next_turn(state, expected):
    """What a turn sends in a state of the output half, of a port that expects this ackID."""
    sent = {
        "waiting": packet(expected, 0),
        "retry-stopped": status(expected, 3),
        "error-stopped": status(expected, 4, 4),
    }
    return ["sent " + sent[state]] if state in sent else []


def replied(entry, ack):
    """The input state behind an entry, and the lines of its reply, which tells this ackID."""
    state, *reply = entry.split()
    if not reply:
        return state, []
    return state, ["sent " + symbol(STYPE0[reply[0]], ack, int(reply[1]), 7, 0)]


class States:
    """A port in two states, and what comes to it."""

    def __init__(self, program, output, input_):
        self.program = program
        self.states = output, input_
        self.lines = INPUTS[input_] + OUTPUTS[output]
        self.trials = 0

    def tries(self, name, lines, told, output, input_, expected=1):
        """The last of the lines is answered so, and the port comes into these states."""
        lines = self.lines + lines + ["state", "turn 1"]
        *_, answer, state, sent = answers(self.program, lines)
        what = "%s at %s" % (name, ", ".join(self.states))
        equal(what + ", answer", answer, told)
        equal(what + ", states", state[:2], ["output " + WORDS.get(output, output), "input " + input_])
        equal(what + ", next turn", sent, next_turn(output, expected))
        self.trials += 1

    def symbol(self, first, second):
        """A symbol: its stype0 is for the output half, and its stype1 for the input half."""
        output, input_ = self.states
        (stype0, ack), (stype1, cmd) = first.split(), second.split()[1:]
        output, *free = (output if OUTPUTS_OF[first, output] == "=" else OUTPUTS_OF[first, output]).split()
        entry = INPUTS_OF[second, input_]
        input_, reply = (input_, []) if entry == "=" else replied(entry, 1)
        chars = symbol(STYPE0[stype0], int(ack), 31, int(stype1), int(cmd))
        self.tries(first + " " + second, ["got " + chars], ["free " + PACKET] * len(free) + reply, output, input_)

    def comes(self, name):
        """A packet, or characters that are none."""
        output, input_ = self.states
        kind, which, *room = name.split()
        chars = BAD[which] if kind == "bad" else packet(0, int(which))
        entry = COMES_OF[name, input_]
        next_input, reply = (input_, []) if entry == "=" else replied(entry, 1)
        held = ["hold " + PACKET] if "accepted" in entry.split() else []
        lines = ["take"] * (room == ["room"]) + ["got " + chars]
        self.tries(name, lines, held + reply, output, next_input, 1 + len(held))


OUTPUTS_OF, INPUTS_OF, COMES_OF, TURNS_OF = map(table, (OUTPUT, INPUT, COMES, TURNS))


def rows(found):
    return dict.fromkeys(row for row, _ in found)


def all_that_comes(states):
    """Each symbol and packet, and what is bad, in two states. Answers how many were tried."""
    for first, second in itertools.product(rows(OUTPUTS_OF), rows(INPUTS_OF)):
        states.symbol(first, second)
    for name in rows(COMES_OF):
        states.comes(name)
    return states.trials


def each_pair_of_states(program):
    pairs = [States(program, *pair) for pair in itertools.product(OUTPUTS, INPUTS)]
    with ThreadPoolExecutor() as pool:
        return sum(pool.map(all_that_comes, pairs))


def each_turn_and_time_out(program):
    """What each state of the output half sends where a packet waits, and what its time-out does."""
    sent = {"packet 0": packet(0, 0), "packet 1": packet(0, 1), "restart": status(0, 3), "request": status(0, 4, 4)}
    for output, lines in OUTPUTS.items():
        entry = TURNS_OF["turn 1", output]
        wanted = ["sent " + sent[entry]] if entry in sent else []
        equal("turn in " + output, answers(program, lines + [SEND, "turn 1"])[-1], wanted)
        late = TURNS_OF["timeout", output]
        *_, told, state, turn = answers(program, lines + [SEND, "timeout", "state", "turn 1"])
        equal("time-out in " + output, [told, state[0], turn], [[], "output " + late, next_turn(late, 0)])
    return 2 * len(OUTPUTS)


if __name__ == "__main__":
    print(each_pair_of_states(sys.argv[1]) + each_turn_and_time_out(sys.argv[1]), "trials")
