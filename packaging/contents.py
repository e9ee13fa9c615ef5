"""Reads packaging/contents, the list of what the packages have."""
import subprocess
from pathlib import Path
from typing import NamedTuple

TOP = Path(__file__).resolve().parent.parent


class Stop(Exception):
    """Nothing is made, for this reason and with this status."""

    def __init__(self, status, why):
        super().__init__(why)
        self.status = status


class Row(NamedTuple):
    """A row of the list: what it takes, where that stands, and what kind of thing it is."""

    source: str
    place: str
    kind: str = "copied"


class Link(bytes):
    """What stands in a package in place of a file: the path to another one, from where it stands."""


def rows():
    """The rows of the list."""
    for line in (TOP / "packaging/contents").read_text().splitlines():
        words = line.split("#")[0].split()
        if words and (len(words) not in (2, 3) or words[2:] not in ([], ["built"], ["link"])):
            raise Stop(1, f"packaging/contents has a row of another form: {line}")
        if words:
            yield Row(*words)


def place_of(row, path):
    """Where a file stands in a package that a row takes."""
    return "usr/" + row.place.format(path=path, name=Path(path).name)


def built():
    """What the gate leaves: the path of each in the tree, and where it stands in a package."""
    return {row.source: place_of(row, row.source) for row in rows() if row.kind == "built"}


def links():
    """The links of a package: where each stands, and what it leads to."""
    return {f"usr/{row.place}": Link(row.source.encode()) for row in rows() if row.kind == "link"}


def programs():
    """The programs that the gate leaves: where each stands in a package, by its name."""
    return {Path(place).name: place for place in built().values() if place.startswith("usr/bin/")}


def git(*words):
    """What git writes of this tree."""
    try:
        done = subprocess.run(["git", *words], cwd=TOP, capture_output=True, text=True, check=False)
    except FileNotFoundError:
        raise Stop(4, "there is no git here") from None
    if done.returncode:
        raise Stop(4, f"git failed: {done.stderr.strip()}")
    return done.stdout


def tracked(*patterns):
    """The files of the repository that are like one of these patterns, or all."""
    return git("ls-files", "-z", "--", *(f":(glob){it}" for it in patterns)).split("\0")[:-1]


def copied():
    """Each file of the repository that stands in a package: where, and its path."""
    for row in rows():
        paths = tracked(row.source) if row.kind == "copied" else []
        if not paths and row.kind == "copied":
            raise Stop(1, f"no file of the repository is like {row.source}")
        for path in paths:
            yield place_of(row, path), path
