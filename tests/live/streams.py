"""What is tried of each program that answers line by line: how lines come, and how it ends."""
import pathlib
import selectors
import subprocess
import sys

sys.path.insert(0, str(pathlib.Path(__file__).parents[2] / "examples" / "live"))

SECONDS = 20
MOST_LINE = 4194304


def equal(what, found, wanted):
    """Says what differs."""
    if found != wanted:
        sys.exit("%s: %r, wanted %r" % (what, found, wanted))


def started(program, *words):
    """The program, with pipes for all its streams."""
    pipe = subprocess.PIPE
    return subprocess.Popen([program, *words], stdin=pipe, stdout=pipe, stderr=pipe)


def ended(program, text, wanted, status, *words):
    """The program writes this of a text, and ends so."""
    process = started(program, *words)
    written, said = process.communicate(text)
    equal("written", written, wanted)
    equal("status", process.returncode, status)
    equal("lines on standard error", said.count(b"\n"), 0 if status == 0 else 1)


def byte_by_byte(program, line, wanted):
    """A line that comes byte by byte is answered once, when its line feed has come, and not before."""
    process = started(program)
    ready = selectors.DefaultSelector()
    ready.register(process.stdout, selectors.EVENT_READ)
    for byte in line:
        process.stdin.write(bytes([byte]))
        process.stdin.flush()
        equal("too early", ready.select(0.01), [])
    process.stdin.write(b"\n")
    process.stdin.flush()
    equal("in time", len(ready.select(SECONDS)), 1)
    equal("answer", process.stdout.read1(), wanted)
    process.communicate()


def gone(program, line):
    """A reader that has gone away ends it."""
    process = started(program)
    process.stdout.close()
    process.stdin.write(line * 10)
    process.stdin.close()
    equal("write fault", process.wait(SECONDS), 5)
    process.stderr.close()
