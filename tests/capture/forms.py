#!/usr/bin/env python3
"""Writes the same 80 characters in thirteen forms, as tools write them, into a folder.

usage: tests/capture/forms.py FOLDER

The characters are a packet between idles with what begins and ends it, its acceptance, a character that a receiver
could not decode, and a request. Each form is what a tool of its kind writes. FORMS has the words of rio_capture that
read it, and the time that each character then has.
"""
import sys
from pathlib import Path

PACKET = "k7c d80 df8 d1f d00 d0f d02 d01 dca dfe d00 d01 da9 dbb d00 d00 k7c d80 dfa d18"
ACCEPTED = "k1c d00 dff d16"
REQUEST = "k1c d80 dfc d87"


def characters():
    """The words of all 80 characters."""
    idles = "kbc kfd kfb kfd".split()
    words = idles * 3 + PACKET.split() + idles * 2 + ACCEPTED.split() + idles + ["inv"] + idles
    words += REQUEST.split()
    return words + (idles * 20)[:80 - len(words)]


def clocks(count):
    """The characters by so many a clock: their bytes, the flags of special ones and of invalid ones, low first."""
    words = characters()
    for at in range(0, len(words), count):
        group = words[at:at + count]
        yield (["00" if word == "inv" else word[1:] for word in group],
               [word[0] == "k" for word in group], [word == "inv" for word in group])


def number(flags):
    return sum(flag << at for at, flag in enumerate(flags))


def ila(count, low_first=True):
    """The table of a logic analyser in an FPGA: names, radixes, and a line a clock."""
    top = 8 * count - 1
    yield (f"Sample in Buffer,Sample in Window,TRIGGER,rx_data[{top}:0],rx_charisk[{count - 1}:0],"
           f"rx_notintable[{count - 1}:0]")
    yield "Radix - UNSIGNED,UNSIGNED,UNSIGNED,HEX,HEX,HEX"
    for sample, (data, special, invalid) in enumerate(clocks(count)):
        order = data[::-1] if low_first else data
        flags = [special, invalid] if low_first else [special[::-1], invalid[::-1]]
        yield f"{sample},{sample},0,{''.join(order)},{number(flags[0]):x},{number(flags[1]):x}"


def ila_with_valid():
    """The same with a column that says which lines count: every third does not."""
    yield "Sample in Buffer,rx_data[31:0],rx_charisk[3:0],rx_notintable[3:0],rx_valid"
    yield "Radix - UNSIGNED,HEX,HEX,HEX,HEX"
    sample = 0
    for data, special, invalid in clocks(4):
        if sample % 3 == 2:
            yield f"{sample},deadbeef,5,0,0"
            sample += 1
        yield f"{sample},{''.join(data[::-1])},{number(special):x},{number(invalid):x},1"
        sample += 1


def signal_tap():
    """Six lines of head, names in the last of them, numbers with an h."""
    yield "Signal Tap logic analyzer data"
    yield "Device: none"
    yield "Created: today"
    yield "Groups:"
    yield "Data:"
    yield "time unit: clocks  rx_data[31..0]  rx_k[3..0]  rx_error[3..0]".replace("  ", "\t")
    for sample, (data, special, invalid) in enumerate(clocks(4)):
        yield f"{sample}\t{''.join(data[::-1]).upper()}h\t{number(special):X}h\t{number(invalid):X}h"


def lanes():
    """A column for each of four lanes."""
    yield "sample " + " ".join(f"lane{lane}_{kind}" for lane in range(4) for kind in ("data", "k", "bad"))
    for sample, (data, special, invalid) in enumerate(clocks(4)):
        cells = [f"{byte} {k:d} {bad:d}" for byte, k, bad in zip(data, special, invalid)]
        yield f"{sample} {' '.join(cells)}"


def named(word):
    if word == "inv":
        return "INV"
    byte = int(word[1:], 16)
    return f"{word[0].upper()}{byte & 31}.{byte >> 5}"


def names():
    words = [named(word) for word in characters()]
    return (" ".join(words[at:at + 8]) for at in range(0, len(words), 8))


def names_with_times():
    """What a protocol analyser writes: the time of each line in nanoseconds, and the disparity of each character."""
    words = [named(word) + ("" if word == "inv" else "+-"[at % 2]) for at, word in enumerate(characters())]
    return (f"{8 * at} {' '.join(words[at:at + 4])}" for at in range(0, len(words), 4))


def packed():
    """Words of 36 bits: four flags above four bytes."""
    for data, special, invalid in clocks(4):
        if any(invalid):
            # the memory has no flag for it: an illegal special character stands there
            data = ["ff" if bad else byte for byte, bad in zip(data, invalid)]
            special = [k or bad for k, bad in zip(special, invalid)]
        yield f"{number(special):x}{''.join(data[::-1])}"


def monitor():
    """What $monitor prints, among other lines."""
    yield "VCD info: dumpfile bench.vcd opened for output."
    for sample, (data, special, invalid) in enumerate(clocks(2)):
        yield f"t={sample * 10} data={''.join(data[::-1])} k={number(special):02b} bad={number(invalid):02b}"


def dump():
    """A value change dump: a clock, data and flags that change after its edge, and a signal beside them."""
    yield "$timescale 1ns $end"
    yield "$scope module bench $end"
    yield "$var wire 1 ! clk $end"
    yield "$scope module dut $end"
    yield "$var wire 32 \" rx_data [31:0] $end"
    yield "$var wire 4 # rx_charisk [3:0] $end"
    yield "$var wire 4 $ rx_notintable [3:0] $end"
    yield "$var wire 8 % other [7:0] $end"
    yield "$upscope $end"
    yield "$upscope $end"
    yield "$enddefinitions $end"
    yield from ("#0", "$dumpvars", "0!", "bx \"", "bx #", "bx $", "bx %", "$end")
    before = (None, None, None)
    for clock, (data, special, invalid) in enumerate(clocks(4)):
        now = (int("".join(data[::-1]), 16), number(special), number(invalid))
        yield f"#{20 * clock + 10}"
        yield "1!"
        yield from (f"b{value:b} {code}" for value, was, code in zip(now, before, "\"#$") if value != was)
        yield f"b{clock:b} %"
        yield f"#{20 * clock + 20}"
        yield "0!"
        before = now
    yield f"#{20 * clock + 30}"
    yield "1!"


FLAGS = ["--flag", "rx_charisk", "--invalid", "rx_notintable"]
ILA = ["columns", "--data", "rx_data", *FLAGS]
LANES = [",".join(f"lane{lane}_{kind}" for lane in range(4)) for kind in ("data", "k", "bad")]

# The forms: a file, its lines, the words that read it, and the time of a character by its place.
FORMS = {
    "one_byte.csv": (lambda: ila(1), ILA, lambda place: place),
    "two_bytes.csv": (lambda: ila(2), ILA, lambda place: place // 2),
    "four_bytes.csv": (lambda: ila(4), ILA, lambda place: place // 4),
    "eight_bytes.csv": (lambda: ila(8), ILA, lambda place: place // 8),
    "with_valid.csv": (ila_with_valid, [
        "columns", "--data", "rx_data", "--flag", "rx_charisk", "--invalid", "rx_notintable",
        "--valid", "rx_valid", "--time", "Sample in Buffer"], lambda place: place // 4 // 2 * 3 + place // 4 % 2),
    "left_first.csv": (lambda: ila(4, False), [*ILA, "--first", "high"], lambda place: place // 4),
    "six_lines_of_head.txt": (signal_tap, [
        "columns", "--data", "rx_data", "--flag", "rx_k", "--invalid", "rx_error",
        "--time", "time unit: clocks"], lambda place: place // 4),
    "four_lanes.txt": (lanes, [
        "columns", "--data", LANES[0], "--flag", LANES[1], "--invalid", LANES[2],
        "--time", "sample"], lambda place: place // 4),
    "names.txt": (names, ["names"], lambda place: place // 8 * 8),
    "names_with_times.txt": (names_with_times, ["names", "--time"], lambda place: place // 4 * 32),
    "thirty_six_bits.txt": (packed, [
        "columns", "--data", "1", "--flag", "above", "--bytes", "4"], lambda place: place // 4),
    "monitor.txt": (monitor, [
        "monitor", "--data", "data", "--flag", "k", "--invalid", "bad", "--time", "t", "--radix", "hex"],
        lambda place: place // 2 * 10),
    "bench.vcd": (dump, [
        "vcd", "--data", "rx_data", "--flag", "rx_charisk", "--invalid", "rx_notintable",
        "--clock", "bench.clk"], lambda place: place // 4 * 20 + 30),
}


def main():
    folder = Path(sys.argv[1])
    for name, (lines, _, _) in FORMS.items():
        folder.joinpath(name).write_text("".join(f"{line}\n" for line in lines()), encoding="ascii")


if __name__ == "__main__":
    main()
