"""A bench of cocotb: the device of device.v, and a port of libkigvarp as the other end of its link, one call a clock.

In a Makefile of cocotb: TOPLEVEL = device, MODULE = cocotb_bench, VERILOG_SOURCES = device.v. The module kigvarp and its
library have to be found (docs/library.md).
"""
import cocotb
from cocotb.clock import Clock
from cocotb.triggers import FallingEdge

from kigvarp import Packet, Port

IDLE = 0x1BC
PACKETS = 20
PATIENCE = 400  # so many clocks without an answer are too long
MOST_CLOCKS = 20000


class Link:
    """What goes between device and port: in each clock a character each way. The device gets no idles."""

    def __init__(self, dut, port):
        self.dut, self.port = dut, port
        self.at_device, self.at_port, self.freed = [], [], 0

    async def run(self):
        dut = self.dut
        while True:
            await FallingEdge(dut.clock)
            given = self.port.clock([int(dut.tx.value) if int(dut.tx_valid.value) else IDLE]).given[0]
            dut.rx.value, dut.rx_valid.value = given, int(given != IDLE)
            if int(dut.held.value):
                self.at_device.append(int(dut.held_packet.value).to_bytes(12, "big"))
            if (packet := self.port.collect()) is not None:
                self.at_port.append(packet)
            self.freed += int(dut.freed.value)


def numbered(number):
    return number.to_bytes(4, "big")


@cocotb.test()
async def packets_go_both_ways(dut):
    """Each packet comes to the other end once, in order, and is acknowledged."""
    for signal in (dut.give, dut.late, dut.rx, dut.rx_valid, dut.rx_bad):
        signal.value = 0
    cocotb.start_soon(Clock(dut.clock, 10, units="ns").start())
    with Port() as port:
        port.patience(PATIENCE)
        link = Link(dut, port)
        cocotb.start_soon(link.run())
        left_here, left_there = list(range(PACKETS)), list(range(PACKETS))
        for _ in range(MOST_CLOCKS):
            await FallingEdge(dut.clock)
            dut.give.value = int(bool(left_there) and int(dut.ready.value) and not int(dut.give.value))
            if int(dut.give.value):
                packet = Packet.write(numbered(left_there.pop(0)), ftype=15, source=1, dest=2)
                dut.packet.value = int.from_bytes(packet, "big")
            if left_here and port.send(numbered(left_here[0]), ftype=15, source=2, dest=1):
                left_here.pop(0)
            if link.freed == len(link.at_device) == PACKETS:
                break
        wanted = [numbered(number) for number in range(PACKETS)]
        assert [packet[4:8] for packet in link.at_port] == wanted
        assert [packet[4:8] for packet in link.at_device] == wanted
