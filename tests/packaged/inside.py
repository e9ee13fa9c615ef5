"""Two builds of one commit give the same bytes; what stands in a package, and what it says of itself."""
import gzip
import hashlib
import os
import re
import tarfile
from io import BytesIO

from .trees import DATE, DOC, KIT, PROGRAMS, TOP, build, run


def trials_of_bytes(one, other, *options):
    """Two builds in different places and surroundings give the same files."""
    done, files = build(one, *options)
    again, others = build(other, *options, MASK="077", TZ="Asia/Tokyo", LC_ALL="C", DPKG_DEB_THREADS_MAX="1")
    yield "the packages are built", done.returncode and done.stderr.decode()
    yield "they are built again", again.returncode and again.stderr.decode()
    names = [file.name for file in files]
    yield "names of two builds", names != [file.name for file in others] and f"{names} {others}"
    for file, twin in zip(files, others):
        yield f"{file.name}, built twice", file.read_bytes() != twin.read_bytes() and "bytes differ"
    told = [f"{hashlib.sha256(file.read_bytes()).hexdigest()}  {file}" for file in files]
    yield "sums that are told", sorted(told) != sorted(done.stdout.decode().splitlines()) and told


def members(data, top):
    """What an archive has: each file's bytes and mode, or what a link leads to, by its path below the top folder."""
    with tarfile.open(fileobj=BytesIO(data)) as archive:
        return {it.name.replace(top, "", 1): (archive.extractfile(it).read(), it.mode) if it.isfile() else it.linkname
                for it in archive if not it.isdir()}


def trials_of_members(name, data):
    """Each member of an archive belongs to root, has the date of the commit, and is in order."""
    with tarfile.open(fileobj=BytesIO(data)) as archive:
        every = archive.getmembers()
    for it in every:
        said = (it.uid, it.gid, it.uname, it.gname, it.mtime, not it.isdir() or it.mode)
        wanted = (0, 0, "root", "root", DATE, not it.isdir() or 0o755)
        yield f"{name}: {it.name}", said != wanted and said
    names = {kind: [it.name for it in every if it.type == kind] for kind in {it.type for it in every}}
    yield f"{name}: order", any(sorted(it) != it for it in names.values()) and "it is not sorted"


def rows_of_installing():
    """The paths that docs/installing.md names in its table, as they stand below the root."""
    for line in (TOP / "docs/installing.md").read_text().splitlines():
        if line.startswith("| `/"):
            folder = ""
            for name in re.findall(r"`([^`]+)`", line.split("|")[1]):
                path = name if name.startswith("/") else f"{folder}/{name}"
                folder = os.path.dirname(path)
                yield path.strip("/")


def trials_of_places(files):
    """Each file stands at a place that docs/installing.md names, and each of these has a file."""
    rows = list(rows_of_installing())
    for path in files:
        yield path, not any(path == row or path.startswith(f"{row}/") for row in rows) and "no row of docs/installing.md"
    for row in rows:
        yield row, not any(path == row or path.startswith(f"{row}/") for path in files) and "it is not in the package"


def trials_of_pages(files):
    """The pages and examples are those of the repository, and no link of a page leads out of the package."""
    patterns = ("*.md", "docs/*", "crates/*/README.md", "examples/**/*")
    pages = [path for it in patterns for path in TOP.glob(it) if path.is_file()]
    wanted = {f"{DOC}/{path.relative_to(TOP)}": path for path in pages}
    for path in wanted:
        yield path, files.get(path) != (wanted[path].read_bytes(), 0o644) and "it is not there, or not as it is here"
    own = {path for path in files if path.startswith(f"{DOC}/")} - set(wanted)
    others = {f"{DOC}/{name}" for name in ("changelog.gz", "copyright", "made-from.txt", "share/capture/rio_capture")}
    yield "nothing else", own != others and f"{own ^ others}"
    for path in (it for it in files if it.endswith(".md")):
        for link in re.findall(rb"\]\(([^):]+)\)", files[path][0]):
            to = os.path.normpath(f"{os.path.dirname(path)}/{link.decode().partition('#')[0]}")
            yield f"link of {path}", to not in files and f"{to} is not in the package"


def trials_of_programs(trees, files):
    """The programs are those that the gate left, and each link leads to a file."""
    for name in PROGRAMS:
        same = files[f"usr/bin/{name}"] == (trees.program(name).read_bytes(), 0o755)
        yield f"program {name}", not same and "other bytes or mode"
    for path, link in files.items():
        if isinstance(link, str):
            to = os.path.normpath(f"{os.path.dirname(path)}/{link}")
            yield path, to not in files and f"it leads to {to}, which is not there"


def trials_of_sums(package, files):
    """The sums that dpkg compares."""
    about = run("dpkg-deb", "--ctrl-tarfile", str(package)).stdout
    sums = dict(line.split("  ")[::-1] for line in members(about, "./")["md5sums"][0].decode().splitlines())
    right = {path: hashlib.md5(it[0]).hexdigest() for path, it in files.items() if not isinstance(it, str)}
    yield "md5sums", sums != right and "they are not those of the files"


def trials_of_origin(trees, package, files):
    """The version is that of the changelog, and the commit, the kit and the license are told."""
    head = re.search(r"^## .*", (TOP / "CHANGELOG.md").read_text(), re.M)[0]
    version = run("dpkg-deb", "-f", str(package), "Version").stdout.decode().strip()
    released = re.search(r"\d+\.\d+\.\d+", head)
    told = version == released[0] if released else "+20260102." in version
    yield "version", not told and f"{version} under '{head}'"
    first = gzip.decompress(files[f"{DOC}/changelog.gz"][0]).decode().splitlines()[0]
    yield "changelog", first != f"kigvarp ({version}) unstable; urgency=medium" and first
    lines = files[f"{DOC}/made-from.txt"][0].decode().splitlines()
    yield "kit", f"kit {KIT}" not in lines and lines
    for name in PROGRAMS:
        told = f"sha256 {hashlib.sha256(trees.program(name).read_bytes()).hexdigest()} usr/bin/{name}"
        yield f"sum of {name}", told not in lines and lines
    yield "commit", re.fullmatch("commit [0-9a-f]{40}", lines[0]) is None and lines[0]
    license = (TOP / "LICENSE").read_text().partition("\n")[2].strip()
    yield "copyright", license.encode() not in files[f"{DOC}/copyright"][0] and "it does not say what LICENSE says"


def trials(trees, package, archive):
    """What stands in the package, and that the archive has the same."""
    data, plain = run("dpkg-deb", "--fsys-tarfile", str(package)).stdout, gzip.decompress(archive.read_bytes())
    files = members(data, "./")
    yield from trials_of_members("package", data)
    yield from trials_of_members("archive", plain)
    plain = members(plain, archive.name.partition("-linux-")[0])
    yield "archive", {f"usr{it}": plain[it] for it in plain} != files and "it is not as the package"
    yield from trials_of_places(files)
    yield from trials_of_pages(files)
    yield from trials_of_programs(trees, files)
    yield from trials_of_sums(package, files)
    yield from trials_of_origin(trees, package, files)
