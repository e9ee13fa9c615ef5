"""All places agree on the version and on the license."""
import re

from .trees import TOP, git, run


def trials_of_version():
    """The number that programs tell stands in all other places."""
    done = run(str(TOP / "packaging/version"))
    yield "version", done.returncode and done.stderr.decode()
    told = re.search(r'b" (\S+), proved', (TOP / "crates/program_start/src/questions.rt").read_text())[1]
    yield "version that is told", done.stdout.decode() != f"{told}\n" and done.stdout


def trials_of_another(trees):
    """One command writes another number to all places, which then agree, and no place keeps the old one."""
    tree = trees.one
    old = run(str(tree / "packaging/version"), cwd=tree).stdout.decode().strip()
    done = run(str(tree / "packaging/version"), "9.8.7", cwd=tree)
    yield "another version", done.returncode and done.stderr.decode()
    yield "its places", run(str(tree / "packaging/version"), cwd=tree).stdout != b"9.8.7\n" and "they do not agree"
    head = re.search(r"^## .*", (tree / "CHANGELOG.md").read_text(), re.M)[0]
    yield "its release", not re.fullmatch(r"## 9\.8\.7, \d{4}-\d\d-\d\d", head) and head
    (tree / "docs/installing.md").write_text(f"kigvarp-{old}-linux\n")
    done = run(str(tree / "packaging/version"), cwd=tree)
    yield "a place that has the old one", done.returncode != 1 and "it is not seen"
    git(tree, "reset", "-q", "--hard")


def trials_of_license(trees):
    """All files say what LICENSE says; another license is written to all by one command, and taken out by it."""
    done = run(str(TOP / "packaging/license"))
    yield "license", done.returncode and done.stderr.decode()
    tree = trees.one
    file, whole = tree / "LICENSE", (tree / "LICENSE").read_text()
    file.write_text("SPDX-License-Identifier: 0BSD\n\nA text.\n")
    done = run(str(tree / "packaging/license"), cwd=tree)
    yield "files without a line", done.returncode != 1 and "they are not seen"
    done = run(str(tree / "packaging/license"), "--write", cwd=tree)
    yield "lines of a license", done.returncode and done.stderr.decode()
    lua = (tree / "share/wireshark/rapidio.lua").read_text().splitlines()[-1]
    yield "line of a file", lua != "-- SPDX-License-Identifier: 0BSD" and lua
    file.write_text(whole)
    run(str(tree / "packaging/license"), "--write", cwd=tree)
    left = run("git", "status", "--porcelain", cwd=tree).stdout.decode()
    yield "lines that are taken out", whole.startswith("SPDX-License-Identifier: NONE") and left


def trials(trees):
    yield from trials_of_version()
    yield from trials_of_another(trees)
    yield from trials_of_license(trees)
