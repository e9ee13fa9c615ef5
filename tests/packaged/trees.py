"""Copies of this tree, with the programs and the record that a gate leaves."""
import contextlib
import os
import shutil
import subprocess
import sys
from pathlib import Path

TOP = Path(__file__).resolve().parent.parent.parent
DOC = "usr/share/doc/kigvarp"
KIT = "the kit of the test"
DATE = 1767322800
RESULT = "34 passed, 0 failed"

# The programs: the name of each, and its crate.
PROGRAMS = {"rio": "rio_cli", "rio_conform": "rio_conform", "rio_follow": "rio_follow", "rio_lane": "rio_lane",
            "rio_live": "rio_live", "rio_port": "rio_port", "rio_view": "rio_view"}

# What the log of a gate has of a crate that was proved, and of one that was kept; what stands between them is left out.
LOG = ("rt: rio_chars proved\nrt: rio_view is kept: an earlier run on this machine proved the same\n"
       "rt: ok; handles allowed: none; must-fail edits: 9 refused; done in this run: 1 of the 2 proofs\n5 passed, 0 failed\n"
       "a word of a test\n6 passed, 0 failed\ntests/run: 6 passed, 0 failed\n")


def run(*words, cwd=TOP, env=None, **how):
    """Runs a program; one that cannot be run has the status 126, as in a shell."""
    where = {**os.environ, "PATH": f"{os.environ['PATH']}:/usr/sbin:/sbin", **(env or {})}
    try:
        return subprocess.run(words, cwd=cwd, env=where, capture_output=True, check=False, **how)
    except OSError as fault:
        return subprocess.CompletedProcess(words, 126, b"", str(fault).encode())


def git(tree, *words):
    """What git does in a tree, the same for the same files."""
    who = {f"GIT_{role}_{what}": value for role in ("AUTHOR", "COMMITTER") for what, value in
           (("NAME", "Test"), ("EMAIL", "test@localhost"), ("DATE", f"{DATE} +0000"))}
    env = {**who, "GIT_CONFIG_GLOBAL": os.devnull, "GIT_CONFIG_NOSYSTEM": "1"}
    done = run("git", *words, cwd=tree, env=env)
    if done.returncode:
        sys.exit(f"git {words[0]}: {done.stderr.decode()}")


def commit(tree):
    """Makes what the tree has a commit."""
    git(tree, "add", "-A")
    git(tree, "commit", "-qm", "The tree under test")


class Trees:
    """A copy of this tree in a folder, with one commit, and a clone of it, with these programs where a gate leaves them."""

    def __init__(self, room, crates):
        self.room, self.crates, self.one, self.other = room, crates, room / "one", room / "the other tree"
        shutil.copytree(TOP, self.one, symlinks=True, ignore=shutil.ignore_patterns("__pycache__", "out", ".git"))
        git(self.one, "init", "-q")
        commit(self.one)
        git(room, "clone", "-q", str(self.one), str(self.other))

    def program(self, name):
        return self.crates / PROGRAMS[name] / "out" / PROGRAMS[name]

    def fill(self, tree):
        """Puts the programs where a gate leaves them, and what else it built."""
        for path in built():
            (tree / path).parent.mkdir(parents=True, exist_ok=True)
            shutil.copy(place_of(path, self.crates), tree / path)

    def passed(self, tree):
        """Has a gate pass in a tree."""
        record(tree, "begin")
        self.fill(tree)
        (tree / "out/gate/log").write_text(LOG)
        record(tree, "end", RESULT)
        return tree


@contextlib.contextmanager
def changed(tree, page, old, new):
    """A tree in which a page is changed, and a commit has the change; afterwards it is as it was."""
    file = tree / page
    file.write_text(file.read_text().replace(old, new))
    git(tree, "commit", "-qam", "Another page", "--allow-empty")
    yield tree
    git(tree, "reset", "-q", "--hard", "HEAD~1")


def built():
    """What the list of contents takes from a gate."""
    for line in (TOP / "packaging/contents").read_text().splitlines():
        words = line.split("#")[0].split()
        if words[2:] == ["built"]:
            yield words[0]


def place_of(path, crates):
    """Where this file stands here, if the programs of crates stand in that folder."""
    parts = Path(path).parts
    return crates.joinpath(*parts[1:]) if parts[0] == "crates" else TOP / path


def with_kit(tree):
    """The surroundings in which rt says what kit it is."""
    stand_in = tree.parent / "bin"
    stand_in.mkdir(exist_ok=True)
    (stand_in / "rt").write_text(f"#!/bin/sh\necho '{KIT}'\n")
    (stand_in / "rt").chmod(0o755)
    return {"PATH": f"{stand_in}:{os.environ['PATH']}"}


def record(tree, *words):
    """Has a gate note what it does, and gives what is said of it."""
    return run(str(tree / "packaging/record"), *words, cwd=tree, env=with_kit(tree)).stderr.decode()


def build(tree, *options, **env):
    """Has a tree's packages made, and gives how it ended and the files."""
    made = tree.parent / f"{tree.name}.made"
    mask = int(env.pop("MASK", "022"), 8)
    done = run(str(tree / "packaging/build"), *options, str(made), cwd=tree.parent, umask=mask, env=env)
    return done, sorted(it for it in made.rglob("*") if it.is_file())


def refusal(tree, status, why, *options):
    """What is wrong with how a tree is refused: with this status, these words, and no file."""
    done, files = build(tree, *options)
    well = done.returncode == status and why in done.stderr.decode() and not files
    return not well and f"status {done.returncode}, {done.stderr.decode()!r}, made {files}"
