"""The code of docs/library.md does what the page says: the lines of C, with the archive; a boot host, which finds what one
over pipes finds; and those of Python.

usage: page.py FOLDER FABRIC
   FOLDER: where the archive and the header stand; FABRIC: rio_live, which has lines of its own
"""
import re
import subprocess
import sys
from pathlib import Path

TOP = Path(__file__).resolve().parents[2]
PAGE = (TOP / "docs/library.md").read_text()
FOLDER = Path(sys.argv[1])


def run(*words, given=None):
    return subprocess.run(words, cwd=TOP, input=given, check=True, capture_output=True, text=True).stdout.splitlines()


def compiled(name, text):
    """A program of this text over the library."""
    (FOLDER / f"{name}.c").write_text(text)
    run("cc", f"-I{FOLDER}", "-o", str(FOLDER / name), str(FOLDER / f"{name}.c"), str(FOLDER / "libkigvarp.a"))
    return str(FOLDER / name)


def same(what, found, wanted):
    if found != wanted:
        sys.exit(f"{what}: {found}, wanted {wanted}")


def boot_host(functions):
    """A boot host over pipes, and one with these functions of the page."""
    text = (TOP / "examples/live/host.c").read_text()
    own = '#include "kigvarp.h"\n' + text
    for first, behind in (("/* Starts the program", "/* Reads a register"), ("/* Ends the input", "/* Sets the fabric up")):
        own = own[:own.index(first)] + functions + own[own.index(behind):]
        functions = ""
    ring = (TOP / "examples/ring.fabric").read_text()
    return [run(compiled(name, code), sys.argv[2], "H", given=ring) for name, code in (("own", own), ("pipes", text))]


packet_code, host_code = re.findall(r"```c\n(.*?)```", PAGE, re.S)
packet = re.search(r"It prints `(\w+)`", PAGE)[1]
same("packet", run(compiled("packet", packet_code)), [packet])
by_library, by_pipes = boot_host(host_code)
same("boot host", by_library, by_pipes)
same("many lines", len(by_pipes) > 5, True)
by_ports, by_words = (run(sys.executable, "-c", python) for python in re.findall(r"```python\n(.*?)```", PAGE, re.S))
same("Python", by_ports, [f"{packet} 1", *(TOP / "examples/first.trace").read_text().splitlines()[:-1]])
events = [line.split(" packet ") for line in (TOP / "examples/packet.lines").read_text().splitlines()[:-1]]
same("events", [line.split()[0] for line in by_words[:-2]], [event[0].split()[0] for event in events])
same("symbol and packet", by_words[-2].split()[-1], packet)
same("trace", by_words[-1], "4 steps")
