"""The functions of the header are those of the archive, and no others of the shared library are seen. The words of a status are
those of its name.

usage: names.py HEADER FOLDER    FOLDER: where the archive and the shared library stand
"""
import re
import subprocess
import sys
from pathlib import Path


def defined(file, *words):
    """The names that a file defines for others."""
    told = subprocess.run(["nm", "--defined-only", "--extern-only", *words, file], capture_output=True, text=True, check=True)
    rows = [line.split() for line in told.stdout.splitlines()]
    return {row[2].partition("@")[0] for row in rows if len(row) == 3 and row[1] in "TDBRVW"}


def wanted(file):
    """The names that the archive leaves to others."""
    told = subprocess.run(["nm", "--undefined-only", file], capture_output=True, text=True, check=True)
    return {line.split()[1] for line in told.stdout.splitlines() if len(line.split()) == 2}


def same(what, found, wanted_names):
    if found != wanted_names:
        sys.exit(f"{what}: {sorted(found ^ wanted_names)} stand in one alone")


text = Path(sys.argv[1]).read_text()
header = set(re.findall(r"^uint32_t (kigvarp_\w+)\(", text, re.M))
statuses = re.findall(r"^  KIGVARP_(\w+) = (\d+)", text.split("/* What a call answers. */")[1].split("};")[0], re.M)
words = re.findall(r'"([a-z ]+)"', text.split("words[] = {")[1].split("};")[0])
same("words", {(name.lower().replace("_", " "), int(number)) for name, number in statuses}, set(zip(words, range(99))))
archive, shared = (Path(sys.argv[2]) / name for name in ("libkigvarp.a", "libkigvarp.so.0"))
same("archive", {name for name in defined(archive) if name.startswith("kigvarp_")}, header)
if shared.exists():
    same("shared library", defined(shared, "--dynamic") - {"KIGVARP_0"}, header)
outside = wanted(archive) - defined(archive)
if not outside <= {"malloc", "realloc", "free", "memcpy", "memmove", "memset", "memcmp", "bcmp", "_GLOBAL_OFFSET_TABLE_"}:
    sys.exit(f"wanted of others: {sorted(outside)}")
print(len(header), "functions")
