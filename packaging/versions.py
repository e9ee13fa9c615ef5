"""The number of the version. It stands in one place, the text that the programs tell; all other places are
compared with it."""
import re

import pages
from contents import TOP, git

PLACE = "crates/program_start/src/questions.rt"
TOLD = re.compile(r'(?<=b" )(\d+\.\d+\.\d+)(?=, proved with )')
# How the number is written elsewhere: before the words of the kit, in the names of packages, and of the module of Python.
# A version with a date behind it, and the names of other releases in CHANGELOG.md, are no such place.
OTHERS = re.compile(
    r"(\d+\.\d+\.\d+)(?=, proved with rattle logic)"
    r"|(?<=kigvarp[-_])(\d+\.\d+\.\d+)(?![\d+]|\.\d)"
    r"|(?<=^version = \")(\d+\.\d+\.\d+)(?=\"$)",
    re.M,
)


def number():
    """The number that the programs tell."""
    found = TOLD.search((TOP / PLACE).read_text(encoding="utf-8"))
    if not found:
        raise pages.Missing(f"{PLACE} has no VERSION of the form that is read here")
    return found[1]


def texts():
    """Each text of the repository that may have the number, but the tests of packages, which have numbers of their own."""
    likely = git("grep", "-lIE", "[0-9], proved with |kigvarp[-_][0-9]|^version = ", "--", ".", ":!packaging", ":!tests/package*")
    for path in sorted({PLACE, "CHANGELOG.md", *likely.splitlines()}):
        yield path, (TOP / path).read_text(encoding="utf-8")


def others():
    """Each other place that has the number: its path, and the number there."""
    for path, text in texts():
        for found in OTHERS.finditer(text):
            yield path, found[0]
    newest = next((version for version, _, _ in pages.releases() if version), "none")
    yield "CHANGELOG.md", newest


def faults():
    """Each place that has another number, with what it has."""
    told = number()
    return [f"{path} has {other}, and {PLACE} has {told}" for path, other in others() if other != told]


def released(changes, head):
    """What is not released yet becomes this release; if nothing is, the release has nothing of its own."""
    new, count = re.subn(r"^## Not released yet$", head, changes, count=1, flags=re.M)
    return new if count else re.sub(r"^## ", f"{head}\n\n## ", changes, count=1, flags=re.M)


def write(wanted, date):
    """Writes another number to all places, and makes what is not released yet the release of this number."""
    for path, text in texts():
        new = OTHERS.sub(wanted, text)
        if path == PLACE:
            new = TOLD.sub(wanted, new)
        elif path == "CHANGELOG.md":
            new = released(new, f"## {wanted}, {date}")
        if new != text:
            (TOP / path).write_text(new, encoding="utf-8")
            yield path
