"""All that is handed out with a release, in one folder."""
import hashlib
import re
from pathlib import Path

import contents
import evidence
import package
import spdx
from contents import Stop
from package import DOC

# The loader and the C library of this Debian, which the archive for any Linux has beside the programs.
LIBRARY = Path("/lib/x86_64-linux-gnu")
BESIDE = "usr/lib/kigvarp"
LOADER = "ld-linux-x86-64.so.2"

WRAPPER = """#!/bin/sh
# Runs {name} with the C library that stands beside it.
beside=$(dirname "$(readlink -f "$0")")/../lib/kigvarp
exec "$beside/{loader}" --library-path "$beside" "$beside/programs/{name}" "$@"
"""


def libc():
    """The version of the C library of this system, as Debian names it."""
    return package.said_by("dpkg-query", "-W", "-f", "${Version}", "libc6")


def for_any(files):
    """The files of the archive for any Linux: each program stands behind a script that starts it with this C library."""
    programs = {name: files[place] for name, place in contents.programs().items()}
    needed = {it.decode() for it in re.findall(rb"\0(lib[\w+-]+\.so\.\d+)(?=\0)", b"".join(programs.values()))}
    if needed != {"libc.so.6"}:
        raise Stop(1, f"the programs need other libraries than libc.so.6: {', '.join(sorted(needed))}")
    beside = {name: (LIBRARY / name).read_bytes() for name in (LOADER, "libc.so.6")}
    beside |= {f"programs/{name}": data for name, data in programs.items()}
    own = {f"{BESIDE}/{name}": data for name, data in beside.items()}
    own |= {f"usr/bin/{name}": WRAPPER.format(name=name, loader=LOADER).encode() for name in programs}
    own[f"{DOC}/libc6.txt"] = f"lib/kigvarp has the loader and libc.so.6 of Debian's libc6 {libc()}.\n\n".encode()
    own[f"{DOC}/libc6.txt"] += Path("/usr/share/doc/libc6/copyright").read_bytes()
    return dict(sorted((files | own).items()))


def write(to, made):
    """Writes the packages, the archives, the list of what is inside, the evidence, and the sums of all of them."""
    files = package.files_of(made)
    told = [package.write_package(to, made, files), package.write_archive(to, made, files),
            package.write_archive(to, made, for_any(files), "linux-amd64-any")]
    texts = {f"kigvarp-{made.version}.spdx.json": spdx.document(made, files, libc()), **evidence.texts(made.record)}
    for name, data in texts.items():
        (to / name).write_bytes(data)
        told.append(to / name)
    sums = [f"{hashlib.sha256(file.read_bytes()).hexdigest()}  {file.name}\n" for file in told]
    (to / "SHA256SUMS").write_text("".join(sums))
    return [*told, to / "SHA256SUMS"]
