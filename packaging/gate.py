"""What the gate leaves of itself in out/gate: a record with the commit, the kit, the result and the sum of all that
it built, and its log. A package takes from a tree what this record has, and nothing else."""
import hashlib
import shutil
import subprocess
from typing import NamedTuple

import contents
from contents import TOP, Stop, git

FOLDER = TOP / "out/gate"
BEGUN, RECORD, LOG = FOLDER / "begun", FOLDER / "record", FOLDER / "log"
AGAIN = "run 'bash .ci/run' in a clean tree, and then this again"


class Record(NamedTuple):
    """What a gate that passed said: of which commit, by which kit, its last line, and the sum of each file that it built."""

    commit: str
    kit: str
    result: str
    sums: dict


def commit_of_tree():
    """The commit that the tree has, if no file of it differs."""
    if git("status", "--porcelain"):
        raise Stop(4, "the tree is not clean: commit or remove what git status shows")
    return git("rev-parse", "HEAD").strip()


def sum_of(path):
    return hashlib.sha256((TOP / path).read_bytes()).hexdigest()


def kit():
    """What the kit says of itself."""
    try:
        done = subprocess.run(["rt", "version"], capture_output=True, text=True, check=False)
    except FileNotFoundError:
        raise Stop(5, "there is no rt here: the kit's bin must be on the path") from None
    if done.returncode:
        raise Stop(5, f"rt version failed: {done.stderr.strip()}")
    return done.stdout.strip()


def begin():
    """Forgets an earlier gate, and notes the commit that this one begins with."""
    shutil.rmtree(FOLDER, ignore_errors=True)
    FOLDER.mkdir(parents=True)
    BEGUN.write_text(f"{commit_of_tree()}\n")


def end(result):
    """Writes the record, if the tree is still what it was when the gate began."""
    commit = commit_of_tree()
    if not BEGUN.exists() or BEGUN.read_text().strip() != commit:
        raise Stop(4, "the gate did not begin with this commit")
    sums = [f"sha256 {sum_of(path)} {path}" for path in contents.built() if (TOP / path).exists()]
    lines = [f"commit {commit}", f"kit {kit()}", f"result {result}", *sums]
    RECORD.write_text("".join(f"{line}\n" for line in lines))


def read():
    """The record of the gate that passed in this tree."""
    if not RECORD.exists():
        raise Stop(5, f"no gate has passed in this tree: {AGAIN}")
    told = [line.split(" ", 1) for line in RECORD.read_text().splitlines()]
    one = {key: value for key, value in told if key != "sha256"}
    sums = {value[65:]: value[:64] for key, value in told if key == "sha256"}
    return Record(one["commit"], one["kit"], one["result"], sums)


def passed():
    """The record, if it is of the commit that this tree has now, and each file is still what the gate left."""
    commit, record = commit_of_tree(), read()
    if record.commit != commit:
        raise Stop(5, f"the gate passed commit {record.commit[:8]}, and this is {commit[:8]}: {AGAIN}")
    for path in contents.built():
        if path not in record.sums:
            raise Stop(3, f"the gate left no {path}: {AGAIN}")
        if not (TOP / path).exists() or sum_of(path) != record.sums[path]:
            raise Stop(3, f"{path} is not what the gate left: {AGAIN}")
    return record
