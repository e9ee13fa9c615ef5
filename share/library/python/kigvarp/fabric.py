"""A whole fabric, which answers the lines of a script."""
import ctypes
from typing import Iterable, Iterator

from .library import AskC, Held, OwnC, ReplyC, within

# What comes of an access to a register, as kigvarp.h has it.
VALUE, WRITTEN, FAILED, UNANSWERED, REFUSED = range(1, 6)


class NotDone(Exception):
    """A register was not read or written: `said` is why, `unanswered`, `error 7` or `refused` with the reason."""

    def __init__(self, said: str) -> None:
        super().__init__(said)
        self.said = said


class Fabric(Held):
    """A fabric that is given the lines of a script one by one, and answers each as `rio_live` does.

    `ask` gives a line. `run` gives many, and is an iterator over the lines of the trace. `own_read` and `own_write` are of a
    register of a node's own. Use a fabric on one thread.
    """

    kind = "fabric"

    def __init__(self) -> None:
        super().__init__()
        self._reply = ReplyC()

    def run(self, lines: Iterable[str]) -> Iterator[str]:
        """Gives lines of a script one after another, and tells the lines of the trace that answer them."""
        for line in lines:
            yield from self.ask(line.rstrip("\n"))

    def own_read(self, node: str, offset: int) -> int:
        """The register of an endpoint at an offset, which the endpoint reads itself, without a packet."""
        within(32, offset)
        return self._access("own", node, OwnC(0, offset, 0))

    def own_write(self, node: str, offset: int, value: int) -> None:
        """Writes that register. It is in no trace."""
        within(32, offset, value)
        self._access("own", node, OwnC(1, offset, value))

    def request(self, host: str, request: AskC) -> int:
        """What comes of a host's request of a register: the value that was read, or 0. Its text waits, and is forgotten."""
        return self._access("ask", host, request)

    def _access(self, call: str, node: str, access: ctypes.Structure) -> int:
        name = node.encode()
        self._done(self._call(call, name, len(name), access, self._reply))
        kind, value = self._reply.kind, self._reply.value
        if kind in (VALUE, WRITTEN):
            return value
        raise NotDone({FAILED: f"error {value}", UNANSWERED: "unanswered"}.get(kind, f"refused {value}"))
