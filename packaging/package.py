"""What stands in a package, and how the Debian package and the plain archive are written. The same commit, kit and programs
give the same bytes."""
import gzip
import hashlib
import io
import os
import re
import subprocess
import tarfile
import tempfile
import textwrap
from datetime import datetime, timezone
from email.utils import format_datetime
from pathlib import Path
from typing import NamedTuple

import contents
import gate
import licenses
import pages
import versions
from contents import TOP, Link, Stop

DOC = "usr/share/doc/kigvarp"
COMPLETIONS = "usr/share/bash-completion/completions"

# The number of a processor in the head of a program, and what Debian calls it.
MACHINES = {62: "amd64"}


class Made(NamedTuple):
    """What a package is made from."""

    record: gate.Record
    author: str
    date: datetime
    version: str


def said_by(*words, **env):
    """What a program writes that has to end well."""
    env = {**os.environ, **env}
    try:
        done = subprocess.run(words, cwd=TOP, env=env, capture_output=True, text=True, check=False)
    except FileNotFoundError:
        raise Stop(1, f"there is no {words[0]} here") from None
    if done.returncode:
        raise Stop(1, f"{words[0]} failed: {done.stderr.strip()}")
    return done.stdout


def version_of(commit, date):
    """The version that the programs tell; if more has come since, the date and the commit stand behind it."""
    number, releases = versions.number(), [version for version, _, _ in pages.releases()]
    newest = next((version for version in releases if version), None)
    if newest != number:
        raise Stop(1, f"the newest release of CHANGELOG.md is {newest}, and the programs tell {number}")
    return number if releases[0] else f"{number}+{date:%Y%m%d}.{commit[:7]}"


def made_from():
    """What a package of this tree is made from, if the gate has passed it."""
    record = gate.passed()
    seconds, author = contents.git("log", "-1", "--format=%ct%n%an <%ae>").splitlines()
    date = datetime.fromtimestamp(int(seconds), timezone.utc)
    return Made(record, author, date, version_of(record.commit, date))


def packed(data):
    """The same bytes for the same data: gzip writes no name and no time."""
    room = io.BytesIO()
    with gzip.GzipFile(filename="", mode="wb", fileobj=room, mtime=0) as file:
        file.write(data)
    return room.getvalue()


def entries(lines):
    """What came with a release, one paragraph or point of a list after another."""
    found = []
    for line in lines:
        if not line.strip():
            found.append("")
        elif line.startswith("- ") or not found or not found[-1]:
            found.append(line.lstrip("-# "))
        else:
            found[-1] += f" {line.strip()}"
    return [it.replace("**", "") for it in found if it]


def changelog(made):
    """The changelog as Debian writes it."""
    for version, date, lines in pages.releases():
        day = datetime.fromisoformat(date).replace(tzinfo=timezone.utc) if date else made.date
        yield f"kigvarp ({version or made.version}) unstable; urgency=medium\n"
        for entry in entries(lines) or ["What came stands in CHANGELOG.md."]:
            yield textwrap.fill(entry, 78, initial_indent="  * ", subsequent_indent="    ")
        yield f"\n -- {made.author}  {format_datetime(day)}\n"


def origin(made):
    """What the package was made from, in words."""
    places = contents.built()
    told = [f"commit {made.record.commit}", f"date {made.date.isoformat()}", f"kit {made.record.kit}"]
    told += [f"sha256 {sum} {places[path]}" for path, sum in made.record.sums.items()]
    return "\n".join(told) + """

The gate of this commit, .ci/run, passed with this kit, and left these programs.
So says whoever made the package. To see for yourself, take the commit and run
its gate.
"""


def overrides():
    """What lintian is not to say of the package."""
    told = ["# The programs stand as the kit built them, so that they can be compared with a build of one's own."]
    told += [f"kigvarp: unstripped-binary-or-object [{place}]" for place in contents.programs().values()]
    return "".join(f"{line}\n" for line in told)


def pkgconfig(made):
    """What pkg-config is told of the library, with paths from where it stands."""
    text = (TOP / "share/library/kigvarp.pc.in").read_text(encoding="utf-8")
    for mark, value in (("prefix", "${pcfiledir}/../../.."), ("libdir", "${pcfiledir}/.."),
                        ("includedir", "${prefix}/include"), ("version", made.version)):
        text = text.replace(f"@{mark}@", value)
    return text


def manual(name, made):
    """The manual page of a program, or of the library."""
    return packed(said_by(str(TOP / "packaging/manual"), name, made.version, f"{made.date:%Y-%m-%d}").encode())


def written(made):
    """What the programs of this folder write: of the pages, of the license and of the gate."""
    yield "usr/lib/x86_64-linux-gnu/pkgconfig/kigvarp.pc", pkgconfig(made).encode()
    for name in ("rio", *pages.SYNOPSES):
        yield f"{COMPLETIONS}/{name}", said_by(str(TOP / "packaging/completion"), name).encode()
        yield f"usr/share/man/man1/{name}.1.gz", manual(name, made)
    yield "usr/share/man/man3/kigvarp.3.gz", manual("kigvarp", made)
    for name in pages.declarations():
        yield f"usr/share/man/man3/{name}.3.gz", packed(b".so man3/kigvarp.3\n")
    yield f"{DOC}/changelog.gz", packed("\n".join(changelog(made)).encode())
    yield f"{DOC}/made-from.txt", origin(made).encode()
    yield "usr/share/lintian/overrides/kigvarp", overrides().encode()
    holders = (TOP / "packaging/copyright").read_text(encoding="utf-8")
    named = licenses.identifier()
    line = "" if named == "NONE" else f"License: {named}\n\n"
    yield f"{DOC}/copyright", holders.format(license=line + licenses.text()).encode()


def files_of(made):
    """Every file of the package: its path, and its bytes."""
    files = {place: (TOP / path).read_bytes() for path, place in contents.built().items()}
    files |= {place: (TOP / path).read_bytes() for place, path in contents.copied()} | contents.links()
    return dict(sorted((files | dict(written(made))).items()))


def mode_of(path):
    return 0o755 if re.match(r"usr/bin/|.*/ld-linux|usr/share/kigvarp/conformance/(rio-conform|junit)$", path) else 0o644


def folders(paths):
    return sorted({str(it) for path in paths for it in Path(path).parents} - {"."})


def machine(files):
    """The name of the processor that the programs are for, and the C library that they need."""
    programs = [files[place] for place in contents.programs().values()]
    kinds = {MACHINES.get(int.from_bytes(data[18:20], "little")) for data in programs}
    if len(kinds) != 1 or None in kinds or any(data[:4] != b"\x7fELF" for data in programs):
        raise Stop(1, "the programs are not all for one processor that has a name here")
    found = re.findall(rb"GLIBC_(\d+)\.(\d+)", b"".join(programs))
    libc = max((tuple(map(int, it)) for it in found), default=(2, 0))
    return kinds.pop(), f"{libc[0]}.{libc[1]}"


def control(made, files):
    """What dpkg is told of the package: its size in kilobytes, of which each folder has one."""
    architecture, libc = machine(files)
    size = sum(-(-len(data) // 1024) for data in files.values()) + len(folders(files))
    told = {"architecture": architecture, "libc": libc, "size": size}
    text = (TOP / "packaging/control").read_text(encoding="utf-8")
    return text.format(version=made.version, maintainer=made.author, **told)


def lay_out(top, made, files):
    """Writes the files, with their modes and the date of the commit."""
    for path in folders(files):
        (top / path).mkdir(parents=True)
    for path, data in files.items():
        if isinstance(data, Link):
            (top / path).symlink_to(data.decode())
        else:
            (top / path).write_bytes(data)
            (top / path).chmod(mode_of(path))
    for path in [*files, *reversed(folders(files)), "."]:
        if path == "." or path in folders(files):
            (top / path).chmod(0o755)
        os.utime(top / path, (made.date.timestamp(), made.date.timestamp()), follow_symlinks=False)


def of_libraries(files):
    """What dpkg is told of shared libraries: to note them anew, and which package has them."""
    names = [found for path in files for found in re.findall(r"^usr/lib/[^/]+/(lib\w+)\.so\.(\d+)$", path)]
    if not names:
        return {}
    shared = "".join(f"{name} {number} kigvarp\n" for name, number in names)
    return {"DEBIAN/triggers": b"activate-noawait ldconfig\n", "DEBIAN/shlibs": shared.encode()}


def write_package(to, made, files):
    """The Debian package."""
    about = control(made, files)
    whole_files = {path: data for path, data in files.items() if not isinstance(data, Link)}
    sums = "".join(f"{hashlib.md5(data).hexdigest()}  {path}\n" for path, data in whole_files.items())
    whole = {**files, "DEBIAN/control": about.encode(), "DEBIAN/md5sums": sums.encode(), **of_libraries(files)}
    file = to / f"kigvarp_{made.version}_{machine(files)[0]}.deb"
    date = str(int(made.date.timestamp()))
    with tempfile.TemporaryDirectory() as room:
        lay_out(Path(room), made, whole)
        said_by("dpkg-deb", "--root-owner-group", "-Zxz", "-z6", "--build", room, str(file),
                SOURCE_DATE_EPOCH=date)
    return file


def member(name, made, mode, data=None):
    it = tarfile.TarInfo(name)
    it.mode, it.mtime, it.uname, it.gname = mode, int(made.date.timestamp()), "root", "root"
    if isinstance(data, Link):
        it.type, it.linkname, it.mode = tarfile.SYMTYPE, data.decode(), 0o777
    else:
        it.type, it.size = (tarfile.DIRTYPE, 0) if data is None else (tarfile.REGTYPE, len(data))
    return it


def write_archive(to, made, files, system=None):
    """A plain archive for a system: one folder, with what the package has below usr."""
    top = f"kigvarp-{made.version}"
    room = io.BytesIO()
    with tarfile.open(fileobj=room, mode="w", format=tarfile.GNU_FORMAT) as archive:
        for path in folders(files):
            archive.addfile(member(path.replace("usr", top, 1), made, 0o755))
        for path, data in files.items():
            it = member(path.replace("usr", top, 1), made, mode_of(path), data)
            archive.addfile(it, io.BytesIO(data if it.isfile() else b""))
    file = to / f"{top}-{system or f'linux-{machine(files)[0]}'}.tar.gz"
    file.write_bytes(packed(room.getvalue()))
    return file
