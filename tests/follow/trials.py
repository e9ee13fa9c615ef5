"""Runs rio_follow. The last line is 'N passed, M failed'.

usage: python3 tests/follow/trials.py PROGRAM RIO
"""
import os
import random
import select
import subprocess
import sys
import time
from xml.etree import ElementTree

sys.dont_write_bytecode = True
import reactions  # noqa: E402
from pair import TOP, answered, changed, differ, inputs  # noqa: E402

PROGRAM, RIO = sys.argv[1:3]

SET_UP = b"endpoint A 1\nendpoint B 2\nlink A.0 B.0\n---\n"
PACKET = b"000f0201cafe0001a9bb0000"
SENT = b"k7c d80 df8 d1f d00 d0f d02 d01 dca dfe d00 d01 da9 dbb d00 d00 k7c d80 dfa d18"
TRACE = [b"take A " + PACKET, b"sent A.0 " + SENT, b"got B.0 " + SENT, b"hold B.0 " + PACKET, b"sent B.0 k1c d00 dff d16",
         b"got A.0 k1c d00 dff d16", b"free A.0 " + PACKET, b"leave B " + PACKET]
HELD = 0.1  # seconds within which a line is answered


def run(text, *words):
    """What a run over this input answers: its status, what it wrote, and what it said."""
    return answered(PROGRAM, text, *words)


class Open:
    """A run whose input stays open."""

    def __init__(self, *words):
        self.process = subprocess.Popen([PROGRAM, *words], stdin=subprocess.PIPE, stdout=subprocess.PIPE,
                                        stderr=subprocess.PIPE, bufsize=0)

    def give(self, text):
        self.process.stdin.write(text)

    def wait(self, size, seconds=HELD):
        """So many bytes of what is written, or fewer if they do not come within so many seconds."""
        got, until = b"", time.monotonic() + seconds
        while len(got) < size:
            left = until - time.monotonic()
            if left <= 0 or not select.select([self.process.stdout], [], [], left)[0]:
                break
            more = os.read(self.process.stdout.fileno(), size - len(got))
            if not more:
                break
            got += more
        return got

    def end(self):
        """The status, with the rest of what was written."""
        self.process.stdin.close()
        rest = self.process.stdout.read()
        self.process.stderr.read()
        return self.process.wait(60), rest


def cases():
    """The cases of rio check: the answers and the words are equal, but for the program's name."""
    for file in sorted((TOP / "tests/check").glob("*.words")):
        text = file.with_suffix(".in").read_bytes()
        wanted = int(file.with_suffix(".status").read_text()), file.with_suffix(".out").read_bytes()
        err = file.with_suffix(".err")
        says = b"rio_follow:" + err.read_bytes().partition(b"\n")[0][4:] + b"\n" if err.exists() else b""
        yield file.stem, run(text) == (*wanted, says)
        # With tell there are the answers ok before it, one for the line between and each line that was taken.
        status, wrote, said = run(text, "tell")
        oks = 0 if said == says else -1
        while wrote.startswith(b"ok\n"):
            oks, wrote = oks + 1, wrote[3:]
        yield f"{file.stem}, tell", (status, wrote) == wanted and oks == wanted_oks(text, wanted)


def wanted_oks(text, wanted):
    """How many lines are answered ok: all behind the set-up that come before the one at which the verdict comes."""
    lines = text.split(b"\n")
    if lines[-1] == b"":
        lines.pop()
    if wanted[1].startswith(b"refused "):
        return 0
    before = lines.index(b"---")
    if wanted[0] == 0:
        return len(lines) - before
    at = int(wanted[1].split()[1]) - 1  # the place of the line that is told, from 0
    if at < len(lines) and lines[at].startswith((b"> alter ", b"> insert ", b"> erase ")):
        at += 1  # an edit is judged when the next line has come, unless it is of no form
        if wanted[1].endswith(b" 21\n"):
            at -= 1
    return min(at, len(lines)) - before


FAULT = b"got B.0 d00"
REPORT = b"""TAP version 14
1..1
not ok 1 - the trace is lawful
  ---
  verdict: unlawful 12 22
  reason: |
    these characters are not at the front of the wire, or the edit is not within it; the wire is empty: got B.0 d00
  ports: 2
  links: 1
  lines: 8
  steps:
    take A: 1
    hold B.0: 1
    free A.0: 1
  before: |
    5: take A 000f0201cafe0001a9bb0000
    6: sent A.0 k7c d80 df8 d1f d00 d0f d02 d01 dca dfe d00 d01 da9 dbb d00 d00 k7c d80 dfa d18
    7: got B.0 k7c d80 df8 d1f d00 d0f d02 d01 dca dfe d00 d01 da9 dbb d00 d00 k7c d80 dfa d18
    8: hold B.0 000f0201cafe0001a9bb0000
    9: sent B.0 k1c d00 dff d16
    10: got A.0 k1c d00 dff d16
    11: free A.0 000f0201cafe0001a9bb0000
  line: |
    12: got B.0 d00
  ...
"""


def reports():
    """Reports: standard output stays as it is, and standard error is TAP, of which JUnit XML is made."""
    said = run(SET_UP + b"\n".join([*TRACE[:7], FAULT]) + b"\n", "--report", "tap")
    yield "a report of a line that is not lawful", said == (10, b"unlawful 12 22\n", REPORT)
    case = junit(REPORT).find("testcase/failure")
    yield "the same for a server", case.get("message") == "unlawful 12 22" and "the wire is empty" in case.text

    status, wrote, said = run(SET_UP + b"\n".join([*TRACE, b"end"]) + b"\n", "tell", "--report", "tap")
    yield "the answers beside a report", (status, wrote) == (0, b"ok\n" * 10 + b"lawful 4\n")
    head = b"TAP version 14\n1..1\nok 1 - the trace is lawful\n  ---\n  verdict: lawful 4\n  ports: 2\n  links: 1\n  lines: 9\n"
    yield "a report of a lawful trace", said.startswith(head) and said.endswith(b"\n    leave B: 1\n  ...\n")
    suite = junit(said)
    yield "the same for a server, of a lawful trace", suite.get("failures") == suite.get("errors") == "0" \
        and "verdict: lawful 4" in suite.find("testcase/system-out").text

    text = SET_UP + b"sent A.0 d00\n" * 30 + b"got A.0 " + b"d00 " * 59 + b"d00\n"
    lines = run(text, "--report", "tap")[2].split(b"\n")
    at = lines.index(b"  before: |")
    yield "twenty lines before it", (lines[at + 1], lines[at + 21]) == (b"    15: sent A.0 d00", b"  line: |")
    yield "each cut at 200 bytes", lines[at + 22] == b"    35: got A.0 " + b"d00 " * 48 + b" ..."

    status, wrote, said = run(b"endpoint A 1\nendpoint A 2\n---\n", "--report", "tap")
    yield "a report of set-up lines", wrote == b"refused 2 4\n" and b"\n  verdict: refused 2 4\n  reason: |\n    a node of" in said
    status, wrote, said = run(SET_UP + b"#" * 4_194_305 + b"\n", "--report", "tap")
    yield "a report of no verdict", (status, wrote) == (8, b"") and said.split(b"\n")[2].startswith(b"Bail out! rio_follow: ")
    fault = junit(said).find("testcase/error")
    yield "the same for a server, of no verdict", "4194304" in fault.get("message")


def junit(report):
    """The JUnit XML of a report."""
    done = subprocess.run([TOP / "share/conformance/junit", "rio_follow"], input=report, capture_output=True, check=True)
    return ElementTree.fromstring(done.stdout)


def open_streams():
    """Lines that are answered while the input stays open."""
    it = Open("tell")
    it.give(SET_UP)
    yield "the line between is answered", it.wait(3, 10) == b"ok\n"
    late = [line for line in TRACE if it.give(line + b"\n") or it.wait(3) != b"ok\n"]
    yield "each line is answered before the next comes", not late
    it.give(b"end\n")
    yield "the last line is answered", it.wait(3) == b"ok\n"
    yield "the end of input is answered", it.end() == (0, b"lawful 4\n")

    it = Open()
    it.give(SET_UP + b"\n".join(TRACE[:2]) + b"\n")
    yield "nothing is said while all is lawful", it.wait(1, 0.3) == b""
    it.give(b"got B.0 d00\n")
    yield "a wrong line is answered while the input stays open", it.wait(14) == b"unlawful 7 22\n"
    yield "and the program has ended", it.process.wait(10) == 10

    it = Open("tell")
    it.give(SET_UP + b"\n".join(TRACE[:2]) + b"\n")
    it.wait(9, 10)
    it.give(b"> alter A.0 99 d00\n")
    yield "an edit outside the wire is answered ok at once", it.wait(3) == b"ok\n"
    it.give(b"got B.0 k7c\n")
    yield "and is told when the next line has come, under its own number", it.wait(14) == b"unlawful 7 22\n"
    it.end()

    it = Open("tell")
    it.give(SET_UP + b"\n".join(TRACE[:2]) + b"\n> alter A.0 99 d00\n")
    it.wait(12, 10)
    it.give(b"short\n")
    yield "an edit that a line short takes back is taken", it.wait(3) == b"ok\n"
    it.end()

    it = Open()
    it.give(b"endpoint A 1\nendpoint A 2\n---\n")
    yield "set-up lines are refused at the line between", it.wait(12, 10) == b"refused 2 4\n"
    yield "and the program has ended then", it.process.wait(10) == 3


def ends():
    """Ends that no case shows."""
    whole = SET_UP + b"\n".join(TRACE) + b"\nend"
    yield "the last line needs no line feed", run(whole)[:2] == (0, b"lawful 4\n")
    yield "a line behind the last", run(whole + b"\nend\n")[:2] == (10, b"unlawful 14 21\n")
    yield "nothing", run(b"")[:2] == (3, b"refused 1 15\n")
    for words in ("play", "tell tell", "--report", "--report xml", "tap --report", "--report tap tell", "tell --report tap tell"):
        yield f"other words: {words}", run(b"", *words.split())[0] == 2
    long = b"#" * 4_194_304
    yield "a line of 4,194,304 bytes", run(SET_UP + long + b"\n")[:2] == (10, b"unlawful 5 21\n")
    yield "and one more", run(SET_UP + long + b"#\n")[0] == 8
    yield "set-up lines of 4,194,304 bytes", run(long[:-1] + b"\n---\n")[:2] == (10, b"unlawful 3 21\n")
    yield "and one more, in several lines", run(b"#\n" * 2_097_152 + b"\n---\n")[0] == 8


def replayed(kind, count):
    """The lines of a trace that rio replay writes, without the last, and its set-up lines."""
    script = subprocess.run(["sh", str(TOP / "tests/large"), kind, str(count)], capture_output=True, check=True).stdout
    trace = subprocess.run([RIO, "replay"], input=script, capture_output=True, check=True).stdout
    return b"".join(line + b"\n" for line in script.split(b"\n")[:3]) + b"---\n", trace[: trace.rindex(b"end\n")]


def fed(head, body, times, tail):
    """How a run ends over a head, a body so many times, and a tail; and how much memory it took before the tail, in KB."""
    it = subprocess.Popen([PROGRAM], stdin=subprocess.PIPE, stdout=subprocess.PIPE, stderr=subprocess.PIPE)
    it.stdin.write(head)
    for _ in range(times):
        it.stdin.write(body)
    it.stdin.flush()
    with open(f"/proc/{it.pid}/status", encoding="ascii") as status:
        most = next(int(line.split()[1]) for line in status if line.startswith("VmHWM"))
    wrote = it.communicate(tail)[0]
    return it.returncode, wrote, most


def long_streams():
    """Traces of more bytes than rio check takes. A link that has carried 32 packets and settled is as it was at first, so its
    trace may come again and again."""
    set_up, body = replayed("script", 1024)
    times = 64_000_000 // len(body) + 1
    status, wrote, most = fed(set_up, body, times, b"end\n")
    yield "64 MB of a trace", (status, wrote) == (0, b"lawful %d\n" % (4 * 1024 * times))
    yield f"in less than 8 MB: {most} KB", most < 8192
    came = b"sent A.0 " + SENT + b"\ngot B.0 " + SENT + b"\n"
    status, wrote, most = fed(SET_UP + TRACE[0] + b"\n", came, 400_000, TRACE[3] + b"\nend\n")
    yield "a packet that comes 400,000 times before it is held", (status, wrote) == (0, b"lawful 2\n")
    yield f"in less than 8 MB too: {most} KB", most < 8192
    hold = next(line for line in body.split(b"\n") if line.startswith(b"hold "))
    status, wrote, _ = run(set_up + body * 8 + hold + b"\nend\n")
    line = set_up.count(b"\n") + 8 * body.count(b"\n") + 1
    yield "a packet held again behind 40 MB", status == 10 and wrote.startswith(b"unlawful %d " % line)


def examples():
    """The traces of the examples are lawful."""
    for name, text in inputs():
        yield name, not differ(PROGRAM, RIO, text)


def changes():
    """Inputs of the cases with small changes: rio check and rio_follow answer the same."""
    chance = random.Random(1)
    for file in sorted((TOP / "tests/check").glob("*.in")):
        lines = file.read_bytes().split(b"\n")
        texts = [b"\n".join(changed(lines, chance)) for _ in range(4)]
        yield f"{file.stem}, changed", not any(differ(PROGRAM, RIO, text) for text in texts)


def drawings():
    """Traces of the examples with changes, drawn by tests/follow/same: rio check and rio_follow answer the same."""
    programs = os.environ | {"RIO_FOLLOW": PROGRAM, "RIO": RIO}
    for words in (["60", "2"], [str(TOP / "examples")]):
        done = subprocess.run([TOP / "tests/follow/same", *words], capture_output=True, text=True, env=programs, check=False)
        yield f"same {' '.join(words)}: {done.stdout}", done.stdout.endswith(" passed, 0 failed\n") and done.stdout[0] != "0"


def judged():
    """Reactions are judged; a wrong one is told before the input ends."""
    for trials in (reactions.over_examples, reactions.over_rules, reactions.over_ends):
        yield from trials(run)
    it = Open("reactions")
    it.give(SET_UP + TRACE[4] + b"\n")
    yield "a wrong reaction is told at its line", it.wait(8) == b"wrong 5\n" and it.end() == (10, b"")


def main():
    passed = failed = 0
    for trials in (cases, reports, open_streams, ends, examples, changes, drawings, judged, long_streams):
        for name, good in trials():
            passed, failed = passed + bool(good), failed + (not good)
            if not good:
                print(f"{name}: not as it must be")
    print(f"{passed} passed, {failed} failed")
    return min(failed, 1)


sys.exit(main())
