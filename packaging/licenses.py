"""The license. It stands in one place, LICENSE: the first line has its SPDX identifier, or NONE, and its text stands below.
Scripts and what is handed out as source have a line with the identifier, their last, unless it is NONE."""
import re
from pathlib import Path

from contents import TOP, tracked

FILE = "LICENSE"
HEAD = "SPDX-License-Identifier: "

# What has a line of its own, and how a comment begins there. What is not named by its ending has the sign in its first line.
# The crates have none: a line there would have all proved anew. LICENSE is theirs, as the list of a release says.
PLACES = ("packaging/*", "tests/**", "share/**", "examples/**", ".ci/run")
COMMENTS = {".py": "#", ".sh": "#", ".awk": "#", ".sbatch": "#", ".yaml": "#", ".lua": "--", ".c": "//", ".cpp": "//",
            ".h": "//", ".v": "//", ".vh": "//"}


def identifier():
    """The identifier of SPDX, or NONE."""
    first = (TOP / FILE).read_text(encoding="utf-8").splitlines()[0]
    return first.removeprefix(HEAD) if first.startswith(HEAD) else "none at the head of LICENSE"


def text():
    """What LICENSE says below its first line."""
    return (TOP / FILE).read_text(encoding="utf-8").partition("\n")[2].strip()


def comment_of(path, content):
    """How a comment begins in a file that has a line of its own, or nothing."""
    if not Path(path).suffix and content.startswith("#!"):
        return "#"
    return COMMENTS.get(Path(path).suffix)


def lined():
    """Each file that has a line of its own: its path, its text, and how a comment begins in it."""
    for path in tracked(*PLACES):
        content = (TOP / path).read_text(encoding="utf-8", errors="replace")
        if comment := comment_of(path, content):
            yield path, content, comment


def lines_in(content, comment):
    return re.findall(rf"^{re.escape(comment)} {HEAD}.*\n?", content, re.M)


def faults():
    """Each file that does not say what LICENSE says."""
    wanted = identifier()
    for path, content, comment in lined():
        told = [line.strip() for line in lines_in(content, comment)]
        if told != ([] if wanted == "NONE" else [f"{comment} {HEAD}{wanted}"]):
            yield f"{path} has {', '.join(told) or 'no line'}, and LICENSE has {wanted}"


def write():
    """Writes the line of each file anew, or takes it out if there is no license."""
    wanted = identifier()
    for path, content, comment in lined():
        new = re.sub(rf"\n?^{re.escape(comment)} {HEAD}.*\n?", "", content, flags=re.M)
        if wanted != "NONE":
            new = f"{new.rstrip()}\n\n{comment} {HEAD}{wanted}\n"
        if new != content:
            (TOP / path).write_text(new, encoding="utf-8")
            yield path
