"""A check of a trace, line by line."""
import ctypes
from typing import Iterable

from .library import ERRORS, LIBRARY, SCRIPT, Handled, HitC, KigvarpError, NotAsked, Refused, Status, Unlawful

HITS = {Status.UNLAWFUL: Unlawful, Status.REFUSED: Refused}


class Checker(Handled):
    """A check of a trace of the fabric that set-up lines make. It takes the lines of the trace one after another, as they
    come, and numbers them from 1.

    `take` gives a line, and `end` says how many steps the trace has. `check` does both for many lines. A line that a reason
    hits is an exception, `Unlawful`, behind which no line is taken. Use a checker on one thread.
    """

    kind = "checker"

    def __init__(self, set_up: Iterable[str]) -> None:
        super().__init__()
        self._hit = HitC()
        text = "".join(line.rstrip("\n") + "\n" for line in set_up).encode()
        if len(text) > SCRIPT:
            raise NotAsked(Status.ARGUMENT)
        self._well(self._call("open", text, len(text), self._hit))

    def _well(self, status: int) -> None:
        """Raises what a status says that is not well."""
        if status:
            fault = Status(status)
            if fault in HITS:
                raise HITS[fault](fault, self._hit.line, self._hit.reason)
            raise ERRORS.get(fault, KigvarpError)(fault)

    def take(self, line: str) -> None:
        """Takes the next line of the trace. The lines so far are lawful, unless the next line says that the wire of the last
        one is too short."""
        text = line.rstrip("\n").encode()
        self._well(LIBRARY.kigvarp_checker_take(self._handle, text, len(text), self._hit))

    def end(self) -> int:
        """No line follows: how many steps the trace has."""
        steps = ctypes.c_uint32()
        self._well(LIBRARY.kigvarp_checker_end(self._handle, self._hit, steps))
        return steps.value

    def check(self, trace: Iterable[str]) -> int:
        """Takes the lines of a whole trace: how many steps it has."""
        for line in trace:
            self.take(line)
        return self.end()
