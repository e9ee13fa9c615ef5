"""Draws sessions of a port, and has one port do each step by calls, characters one by one or in runs, and another by lines:
both tell the same and stand alike. Packets come from a third port over a noisy wire.

usage: drawn.py SESSIONS SEED
"""
import random
import sys

from kigvarp import NotAsked, Port, char_text, text_of

IDLE = 0x1BC
LENGTHS = (0, 2, 4, 5, 80, 264, 266, 268, 270)
STATES = ("output", "input", "outstanding", "waiting")


def equal(what, found, wanted):
    if found != wanted:
        sys.exit(f"{what}: {found!r}, wanted {wanted!r}")


def told(answer):
    """What an answer tells: how many packets were held and freed, and the characters that are sent."""
    words = [line.split() for line in answer]
    sent = [word for line in words if line[0] == "sent" for word in line[1:]]
    return sum(line[0] == "hold" for line in words), sum(line[0] == "free" for line in words), " ".join(sent)


def noisy(chars, chance):
    """Characters of a wire that turns bits over, and loses or adds characters."""
    for number in chars:
        kind = chance.randrange(100)
        if kind == 0:
            number = chance.choice((number ^ 1 << chance.randrange(9), 0x200, 0x3FF))
        if kind != 1:
            yield number & 0x3FF
        if kind == 2:
            yield chance.randrange(0x201)


def got(by_calls, by_lines, chars, chance):
    if not chars:
        return []
    if chance.randrange(2):
        did = by_calls.got(chars)
        found = (did.held, did.freed, text_of(did.sent))
        sent = list(did.sent)
    else:
        each = [by_calls.take(number) for number in chars]
        sent = [number for did in each for number in did.sent]
        found = (sum(did.held > 0 for did in each), sum(did.freed for did in each), text_of(sent))
    equal("characters", found, told(by_lines.ask("got " + " ".join(map(char_text, chars)))))
    return sent


def clock(by_calls, by_lines, chars, chance):
    """A clock for each character, and some idles behind them: what is given."""
    run = list(chars) + chance.randrange(40) * [IDLE]
    did = by_calls.clock(run)
    *lines, given = by_lines.ask(" ".join(["clock", *map(char_text, run)]))
    words = [line.split()[0] for line in lines]
    found = (did.held, did.freed, did.fired, text_of(did.given))
    wanted = (words.count("hold"), words.count("free"), words.count("fire"), given[len("given "):])
    equal("clocks", found, wanted)
    return list(did.given)


def send(by_calls, by_lines, chance):
    """A packet, of which one in some has a field or a length out of range."""
    large, wild = chance.randrange(4) == 0, chance.randrange(4) == 0
    most = (0x10003 if large else 0x102) if wild else 0x80
    prio, ftype = chance.randrange(4 + wild), chance.randrange(16 + wild)
    source, dest, rest = chance.randrange(most), chance.randrange(most), chance.randbytes(chance.choice(LENGTHS))
    line = f"send{'16' * large} {prio} {ftype} {source} {dest} {rest.hex() or '-'}"
    try:
        found = "queued" if by_calls.send(rest, prio=prio, ftype=ftype, source=source, dest=dest, large=large) else "full"
    except (NotAsked, ValueError):
        found = "refused"
    equal(line, found, by_lines.ask(line)[0].split()[0])


def alike(by_calls, by_lines):
    state = by_calls.state()
    lines = dict(line.split() for line in by_lines.ask("state"))
    equal("state", (state.output, state.input, str(state.outstanding), "yes" if state.waiting else "no"),
          tuple(lines[name] for name in STATES))


def collect(by_calls, by_lines):
    packet = by_calls.collect()
    equal("packet", ["empty"] if packet is None else [f"taken {packet.hex()}"], by_lines.ask("take"))


def session(seed):
    chance = random.Random(seed)
    by_calls, by_lines, far = Port(), Port(), Port(chance.randrange(4, 31))
    clocks = chance.choice((0, 1, 7, 100))
    for port in (by_calls, by_lines):
        port.patience(clocks)
    for _ in range(30):
        if chance.randrange(2):
            far.send(chance.randbytes(2 * chance.randrange(20)), prio=chance.randrange(4), ftype=2, source=1, dest=2)
        answers = got(by_calls, by_lines, list(noisy(far.turn(), chance)), chance)
        if chance.randrange(2):
            send(by_calls, by_lines, chance)
        burst = by_calls.turn()
        equal("turn", (0, 0, text_of(burst)), told(by_lines.ask("turn 1")))
        back = far.got(list(noisy(answers, chance)) + list(noisy(burst, chance))).sent
        got(by_calls, by_lines, list(noisy(back, chance)), chance)
        if chance.randrange(2):
            given = clock(by_calls, by_lines, noisy(far.turn(), chance), chance)
            clock(by_calls, by_lines, noisy(far.got(list(noisy(given, chance))).sent, chance), chance)
        if chance.randrange(3) == 0:
            collect(by_calls, by_lines)
            far.collect()
        if chance.randrange(6) == 0:
            by_calls.time_out()
            equal("time-out", by_lines.ask("timeout"), [])
            far.time_out()
        alike(by_calls, by_lines)


for number in range(int(sys.argv[1])):
    session(f"{sys.argv[2]}.{number}")
