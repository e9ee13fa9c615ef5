"""The words of rio_capture."""
import argparse
import contextlib
import sys
from typing import TextIO

from . import columns, pairs, pieces, texts, times, vcd
from .output import open_for_writing, write
from .refusal import Refused, note

ABOUT = """Reads a capture of one direction of a serial RapidIO link and writes its characters, as
rio decode reads them. What it cannot read it refuses, with the line and the word."""


def with_layout(parser: argparse.ArgumentParser) -> None:
    parser.add_argument("--places", metavar="FILE", help="writes the place and time of each character")
    parser.add_argument("--first", choices=("low", "high"), default="low",
                        help="which byte of a clock came first: the low one, on the right, or the high one")


def names(text: str) -> list[str]:
    return text.split(",")


def add_vcd(forms) -> None:
    parser = forms.add_parser("vcd", help="a waveform of a simulation")
    parser.add_argument("file", nargs="?", default="-")
    parser.add_argument("--data", type=names, required=True, help="the signal of the bytes, or of each lane")
    parser.add_argument("--flag", type=names, required=True,
                        help="which bytes are special; 'above' if that is told by the bits above the data")
    parser.add_argument("--invalid", type=names, default=[], help="which bytes are no characters")
    parser.add_argument("--valid", help="whether a sample counts")
    parser.add_argument("--clock", help="the clock; without it a sample is taken after each change")
    parser.add_argument("--edge", choices=("rise", "fall", "both"), default="rise")
    with_layout(parser)


def add_columns(forms) -> None:
    parser = forms.add_parser("columns", help="a table: a line a clock")
    parser.add_argument("file", nargs="?", default="-")
    parser.add_argument("--data", type=names, help="names or numbers of columns")
    parser.add_argument("--flag", type=names, help="'above' if the flags stand above the data")
    parser.add_argument("--invalid", type=names, default=[])
    parser.add_argument("--valid")
    parser.add_argument("--time")
    parser.add_argument("--bytes", type=int, help="how many a clock has, if the digits do not show it")
    parser.add_argument("--head", type=int, help="how many lines are a head")
    parser.add_argument("--radix", choices=tuple(columns.NUMBER), default="hex")
    with_layout(parser)


def add_texts(forms) -> None:
    parser = forms.add_parser("dump", help="a hex dump of a capture memory")
    parser.add_argument("file", nargs="?", default="-")
    with_layout(parser)
    parser = forms.add_parser("names", help="characters by name, as K28.3 D0.4")
    parser.add_argument("file", nargs="?", default="-")
    parser.add_argument("--time", action="store_true", help="each line begins with its time")
    with_layout(parser)
    parser = forms.add_parser("monitor", help="text of $monitor, with NAME=VALUE")
    parser.add_argument("file", nargs="?", default="-")
    for kind in ("data", "flag"):
        parser.add_argument(f"--{kind}", required=True)
    for kind in ("invalid", "valid", "time"):
        parser.add_argument(f"--{kind}")
    parser.add_argument("--radix", choices=tuple(columns.NUMBER), default="hex")
    with_layout(parser)


def add_others(forms) -> None:
    parser = forms.add_parser("decode", help="rio decode of characters, however many there are")
    parser.add_argument("file", nargs="?", default="-")
    parser.add_argument("--rio", default="rio", help="the program rio")
    parser = forms.add_parser("times", help="times beside what was read")
    parser.add_argument("places", help="the file of places, or of lines")
    parser.add_argument("file", nargs="?", default="-")
    parser.add_argument("--page", action="store_true", help="the input is a page of rio_view")
    parser.add_argument("--ladder", metavar="TRACE", help="the input is a ladder of this trace")
    parser = forms.add_parser("pair", help="two directions as one trace")
    parser.add_argument("ports", nargs=2, metavar="PORT", help="A.0 and B.0: who sends the first, the second")
    parser.add_argument("files", nargs=4, metavar="FILE", help="characters and places of the first, of the second")
    parser.add_argument("--set-up", metavar="FILE", help="set-up lines, if they are not two endpoints and a link")
    parser.add_argument("--lines", metavar="FILE", help="writes the number and time of each line")


def parsed(words: list[str]) -> argparse.Namespace:
    parser = argparse.ArgumentParser(prog="rio_capture", description=ABOUT)
    forms = parser.add_subparsers(dest="form", required=True)
    for add in (add_vcd, add_columns, add_texts, add_others):
        add(forms)
    return parser.parse_args(words)


def text_of(name: str, stack: contextlib.ExitStack) -> TextIO:
    try:
        it = open(0 if name == "-" else name, encoding="utf-8-sig", errors="surrogateescape", closefd=name != "-")
    except OSError as why:
        raise Refused(f"{name} cannot be read: {why.strerror}") from None
    return stack.enter_context(it)


def bytes_of(name: str, stack: contextlib.ExitStack):
    try:
        it = open(0 if name == "-" else name, "rb", buffering=1 << 20, closefd=name != "-")
    except OSError as why:
        raise Refused(f"{name} cannot be read: {why.strerror}") from None
    return stack.enter_context(it)


def wanted_columns(said: argparse.Namespace) -> columns.Wanted:
    is_plain = said.flag is None and said.data is None
    data, flag = said.data or ["1"], said.flag or (["2"] if is_plain else None)
    if flag is None:
        raise Refused("name the column of the flags with --flag: bytes alone do not say which "
                      "characters are special")
    is_packed = flag == ["above"]
    if is_packed and len(data) != 1:
        raise Refused("flags above the data are read from one column")
    return columns.Wanted(
        data=data, flag=[] if is_packed else flag, invalid=said.invalid, valid=said.valid,
        time=said.time, packed=is_packed, bytes=said.bytes, head=said.head, radix=said.radix,
        low_first=said.first == "low", plain=is_plain)


def samples_of(said: argparse.Namespace, stack: contextlib.ExitStack):
    """The samples of the form that was asked for, and what their times count."""
    if said.form == "vcd":
        reader = vcd.Reader(bytes_of(said.file, stack), vcd.Wanted(
            data=said.data, flag=[] if said.flag == ["above"] else said.flag, invalid=said.invalid,
            valid=said.valid, clock=said.clock, edge=said.edge, low_first=said.first == "low"))
        return reader.samples(), reader.head.unit
    if said.form == "columns":
        reader = columns.Reader(text_of(said.file, stack), wanted_columns(said))
        return reader.samples(), reader.unit
    if said.form == "monitor":
        kinds = ("data", "flag", "invalid", "valid", "time")
        reader = texts.Monitor(text_of(said.file, stack), {it: getattr(said, it) for it in kinds},
                               said.radix, said.first == "low")
        return reader.samples(), reader.unit
    if said.form == "dump":
        return texts.dump_samples(text_of(said.file, stack)), "samples"
    lines = text_of(said.file, stack)
    return texts.named_samples(lines, said.time), "units of the capture" if said.time else "samples"


def carry_out(said: argparse.Namespace, stack: contextlib.ExitStack) -> None:
    if said.form == "decode":
        sys.stdout.writelines(pieces.decoded(text_of(said.file, stack), said.rio))
    elif said.form == "times":
        put_times(said, text_of(said.file, stack), text_of(said.places, stack), stack)
    elif said.form == "pair":
        write_trace(said, stack)
    else:
        samples, unit = samples_of(said, stack)
        places = open_for_writing(said.places)
        if write(samples, unit, sys.stdout, places and stack.enter_context(places)) == 0:
            note("no sample counts: nothing is written")


def put_times(said: argparse.Namespace, text: TextIO, places: TextIO,
              stack: contextlib.ExitStack) -> None:
    if said.page:
        sys.stdout.write(times.in_page(text.read(), places))
    elif said.ladder:
        sys.stdout.write(times.in_ladder(text.read(), text_of(said.ladder, stack), places))
    else:
        sys.stdout.writelines(times.beside(text, places))


def write_trace(said: argparse.Namespace, stack: contextlib.ExitStack) -> None:
    first, second = said.files[:2], said.files[2:]
    set_up = text_of(said.set_up, stack) if said.set_up else pairs.plain_set_up(said.ports)
    directions = [(port, text_of(files[0], stack), text_of(files[1], stack))
                  for port, files in zip(said.ports, (first, second))]
    unit = text_of(first[1], stack).readline().rstrip("\n").rpartition(", in ")[2]
    lines = open_for_writing(said.lines)
    if lines:
        stack.enter_context(lines).write(f"# LINE TIME, in {unit}\n")
    for number, (line, time) in enumerate(pairs.trace(directions, set_up), 1):
        sys.stdout.write(f"{line}\n")
        if lines and time:
            lines.write(f"{number} {time}\n")


def main(words: list[str]) -> int:
    said = parsed(words)
    try:
        with contextlib.ExitStack() as stack:
            carry_out(said, stack)
            sys.stdout.flush()
    except Refused as why:
        # what was written is no whole capture: rio decode refuses this word
        if said.form in ("vcd", "columns", "dump", "names", "monitor"):
            print("?", flush=True)
        note(str(why))
        return 1
    except BrokenPipeError:
        sys.stderr.close()
        return 5
    return 0
