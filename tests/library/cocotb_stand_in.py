"""Runs examples/live/cocotb_bench.py without cocotb: a stand-in has the names that it uses of it, and a port of the library
is the device, behind the signals of device.v. cocotb and a simulator are not tried by this.
"""
import sys
import types
from pathlib import Path

from kigvarp import Port

IDLE = 0x1BC


class Signal:
    value = 0


class Dut:
    """The signals of device.v, and what they do at the rising edge of the clock."""

    def __init__(self):
        for name in "clock rx_valid rx_bad rx give packet late ready waits tx_valid tx held held_packet freed".split():
            setattr(self, name, Signal())
        self.port, self.offered = Port(), 0
        self.ready.value = 1

    def rise(self):
        if self.give.value:
            packet = self.packet.value.to_bytes(12, "big")
            self.offered += self.port.send(packet[4:8], ftype=packet[1] & 15, source=packet[3], dest=packet[2])
        did = self.port.clock([self.rx.value if self.rx_valid.value else IDLE])
        held = self.port.collect() if did.held else None
        self.held.value, self.held_packet.value = int(held is not None), int.from_bytes(held or b"", "big")
        self.freed.value = did.freed
        self.offered -= did.freed
        self.ready.value = int(self.offered == 0)
        self.tx.value, self.tx_valid.value = did.given[0], int(did.given[0] != IDLE)


class Edge:
    """What a coroutine waits for."""

    def __init__(self, signal):
        self.signal = signal

    def __await__(self):
        yield self


class Clock:
    def __init__(self, signal, period, units):
        self.signal = signal

    async def start(self):
        await Edge(self.signal)


def stand_in(tasks, tests):
    """The modules that the bench takes of cocotb. What is started waits for each edge."""
    modules = {name: types.ModuleType(name) for name in ("cocotb", "cocotb.clock", "cocotb.triggers")}
    modules["cocotb"].test = lambda: tests.append
    modules["cocotb"].start_soon = tasks.append
    modules["cocotb.clock"].Clock = Clock
    modules["cocotb.triggers"].FallingEdge = Edge
    sys.modules.update(modules)


def goes_on(task):
    try:
        task.send(None)
        return True
    except StopIteration:
        return False


tasks, tests = [], []
stand_in(tasks, tests)
sys.path.insert(0, str(Path(__file__).resolve().parents[2] / "examples/live"))
import cocotb_bench  # noqa: E402

dut = Dut()
bench = tests[0](dut)
while goes_on(bench):
    tasks[:] = [task for task in tasks if goes_on(task)]
    dut.rise()
if not cocotb_bench.PACKETS or len(tests) != 1:
    sys.exit("no bench ran")
