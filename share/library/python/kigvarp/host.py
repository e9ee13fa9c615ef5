"""A host, which reads and writes the registers of a fabric."""
from .fabric import Fabric
from .library import AskC, within


class Host:
    """An endpoint of a fabric that reads and writes registers, each by one request, which does what a line `ask` does
    (docs/live.md). A register that is not read or written is the exception `NotDone`.

    Endpoints answer if they are served: `fabric.ask("serve all")`. With `large` the IDs have 16 bits.
    """

    def __init__(self, fabric: Fabric, node: str, *, large: bool = False, prio: int = 0) -> None:
        self.fabric = fabric
        self.node = node
        self.large = large
        self.prio = prio
        self._number = 0

    def read(self, dest: int, hop: int, offset: int) -> int:
        """The register at an offset of the device to which the ID leads, so many hops away at most."""
        return self._ask(0, dest, hop, offset, 0)

    def write(self, dest: int, hop: int, offset: int, value: int) -> None:
        """Writes that register."""
        self._ask(1, dest, hop, offset, value)

    def own_read(self, offset: int) -> int:
        """The register at an offset of the host itself, without a packet."""
        return self.fabric.own_read(self.node, offset)

    def own_write(self, offset: int, value: int) -> None:
        """Writes that register."""
        self.fabric.own_write(self.node, offset, value)

    def _ask(self, write: int, dest: int, hop: int, offset: int, value: int) -> int:
        """What comes of a request."""
        within(8, self.prio, hop)
        within(16, dest)
        within(32, offset, value)
        self._number = (self._number + 1) % 256
        return self.fabric.request(self.node, AskC(self.prio, hop, self._number, int(self.large), write, dest, offset, value))
