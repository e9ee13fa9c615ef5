"""Why a capture is not read."""


class Refused(Exception):
    """What cannot be read, with the line that has it."""

    def __init__(self, why: str, line: int | None = None):
        super().__init__(why if line is None else f"line {line}: {why}")


def note(text: str) -> None:
    """Says on standard error what a reader has to know of a capture."""
    import sys

    print(f"rio_capture: {text}", file=sys.stderr)
