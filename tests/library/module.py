"""The module of Python: a packet over two ports, runs of any length, statuses as exceptions, and a fabric by lines. The
packet is that of the worked rows, which the standard's CRCs give."""
import sys
from array import array
from pathlib import Path

from kigvarp import Closed, Fabric, Host, NotAsked, NotDone, Port, Status, chars_of, text_of

TOP = Path(__file__).resolve().parents[2]
PACKET = "000f0201cafe0001a9bb0000"


def equal(what, found, wanted):
    if found != wanted:
        sys.exit(f"{what}: {found!r}, wanted {wanted!r}")


def packets():
    with Port() as near, Port(buffers=4) as far:
        equal("put", near.send(bytes.fromhex("cafe0001"), ftype=15, source=1, dest=2), True)
        burst = near.turn()
        did = far.got(burst)
        equal("held", (did.held, did.freed, text_of(did.sent)), (1, 0, "k1c d00 dff d16"))
        equal("packet", far.collect().hex(), PACKET)
        equal("no more", far.collect(), None)
        freed = [near.take(number) for number in did.sent]
        equal("freed", [it.freed for it in freed], [0, 0, 0, 1])
        equal("state", near.state(), ("ok", "ok", 0, False))
        near.time_out()
        equal("asks", near.state().output, "error-stopped")


def runs():
    """A run is as its characters one by one, however many they are."""
    with Port() as by_run, Port() as by_one:
        noise = array("H", (k * 2654435761 % 509 for k in range(100000)))
        did = by_run.got(noise)
        sent = array("H")
        for number in noise:
            sent.extend(by_one.take(number).sent)
        equal("sent", did.sent, sent)
        equal("state", by_run.state(), by_one.state())
        equal("none", by_run.got([]), (0, 0, array("H")))


def clocks():
    """In each clock a character is given: a packet without an idle within it, and then idles. A time-out fires in the third
    clock without an answer, of which the first gives the last character."""
    with Port() as near, Port() as far:
        near.patience(3)
        near.send(bytes.fromhex("cafe0001"), ftype=15, source=1, dest=2)
        idles = array("H", 22 * [0x1BC])
        did = near.clock(idles)
        equal("no answer", (did.held, did.freed, did.fired), (0, 0, 1))
        equal("given", did.given[20:], idles[20:])
        back = far.clock(did.given + idles)
        equal("held", (back.held, back.freed, back.fired), (1, 0, 0))
        equal("accepted", text_of(back.given[19:23]), "k1c d00 dff d16")
        equal("many", len(near.clock(array("H", 100000 * [0x1BC])).given), 100000)
        equal("none", near.clock([]), (0, 0, 0, array("H")))


def statuses():
    port = Port()
    for count in range(17):
        equal("put", port.send(b"", prio=1, ftype=2, source=1, dest=2), count < 16)
    for wrong in ({"prio": 4}, {"ftype": 16}, {"source": 256}):
        try:
            port.send(b"", **{"ftype": 2, "source": 1, "dest": 2, **wrong})
            sys.exit(f"{wrong} is sent")
        except NotAsked as fault:
            equal("status", fault.status, Status.ARGUMENT)
    port.close()
    port.close()
    try:
        port.turn()
        sys.exit("a closed port takes a turn")
    except Closed as fault:
        equal("status", fault.status, Status.CLOSED)
    for buffers in (3, 31):
        try:
            sys.exit(f"{buffers} buffers: {Port(buffers)}")
        except ValueError:
            pass


def lines():
    with Port() as port:
        equal("asked", port.ask("send 0 15 1 2 cafe0001"), ["queued " + PACKET])
        equal("refused", port.ask("nonsense")[0].split()[0], "refused")
    with Fabric() as fabric:
        script = (TOP / "examples/first.script").read_text().splitlines()
        trace = (TOP / "examples/first.trace").read_text().splitlines()
        equal("trace", [*fabric.run(script), "end"], trace)
    with Fabric() as fabric:
        set_up = ["endpoint H 0", "endpoint A 1", "link H.0 A.0", "serve all", "quiet"]
        equal("set up", [*fabric.run(set_up)], [])
        told = fabric.ask("ask read H 0 1 0 7 000068")
        equal("a register by one line", told[-1], "value 0000ffff")
        equal("quietly", [line for line in told if line.startswith(("sent", "got"))], [])


def hosts():
    """Registers of docs/registers.md: a component tag is written and read, a base device ID has both sizes."""
    with Fabric() as fabric:
        for line in ("endpoint H 0", "large H 7", "endpoint A 1", "large A 258", "link H.0 A.0", "serve all", "quiet"):
            equal(line, fabric.ask(line), [])
        host, large = Host(fabric, "H"), Host(fabric, "H", large=True, prio=2)
        host.write(1, 255, 0x6C, 0xCAFE)
        equal("read back", host.read(1, 255, 0x6C), 0xCAFE)
        equal("by 16 bits", large.read(258, 255, 0x60), 0x00010102)
        for number in range(300):
            equal("again", host.read(1, 0, 0x6C), 0xCAFE)
        not_done((
            (lambda: host.read(1, 0, 1), "error 7"),
            (lambda: host.write(1, 0, 0, 1), "error 7"),
            (lambda: Host(fabric, "N").read(1, 0, 0x6C), "refused 5"),
        ))
        for what in (lambda: host.read(1, 256, 0), lambda: host.read(256, 0, 0), lambda: host.write(1, 0, 1 << 24, 0),
                     lambda: host.write(1, 0, 0x6C, -1), lambda: Host(fabric, "H", prio=4).read(1, 0, 0)):
            try:
                sys.exit(f"out of range: {what()}")
            except NotAsked as fault:
                equal("status", fault.status, Status.ARGUMENT)


def own():
    """A host's own registers: what it writes another host reads, and the text that waits stays."""
    with Fabric() as fabric:
        for line in ("endpoint H 0", "switch S 2", "endpoint A 1", "endpoint B 2", "link H.0 A.0", "serve all", "quiet"):
            equal(line, fabric.ask(line), [])
        host, far = Host(fabric, "H"), Host(fabric, "A")
        host.own_write(0x6C, 0xCAFE)
        equal("by packets", far.read(0, 255, 0x6C), 0xCAFE)
        far.write(0, 255, 0x6C, 0xBEEF)
        equal("back", (host.own_read(0x6C), fabric.own_read("A", 0x6C)), (0xBEEF, 0))
        fabric.own_write("A", 0x60, 9 << 16)
        equal("another ID", host.read(9, 255, 0x60), 9 << 16 | 0xFFFF)
        not_done((
            (lambda: host.own_read(0x70), "error 7"),
            (lambda: host.own_write(0x10, 1), "error 7"),
            (lambda: fabric.own_read("S", 0x70), "refused 11"),
            (lambda: fabric.own_read("N", 0x68), "refused 5"),
            (lambda: Host(fabric, "B").read(0, 255, 0x6C), "unanswered"),
        ))
        try:
            sys.exit(f"a long offset: {host.own_read(1 << 24)}")
        except NotAsked as fault:
            equal("status", fault.status, Status.ARGUMENT)


def not_done(cases):
    for what, said in cases:
        try:
            sys.exit(f"{said}: {what()}")
        except NotDone as done:
            equal("not done", done.said, said)


def texts():
    equal("text", text_of(chars_of("k1c d00 dff inv")), "k1c d00 dff inv")
    equal("numbers", chars_of("k1c dff inv"), [0x11C, 0xFF, 0x200])


for case in (packets, runs, clocks, statuses, lines, hosts, own, texts):
    case()
