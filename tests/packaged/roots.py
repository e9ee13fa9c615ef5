"""The package is used in a fresh Debian without the kit, and the archive for any Linux in the oldest one that can
be had.

mmdebstrap makes the roots once, which needs the rights of root and a mirror, and takes a minute, or ten over a slow
line; after a quarter of an hour it is given up. They are kept in KIGVARP_ROOTS, or in ~/.cache/kigvarp-roots."""
import os
import re
import shutil
import subprocess
import urllib.request
from pathlib import Path

from .installed import left_in, trials_of_examples
from .trees import DOC, run

MIRROR = os.environ.get("KIGVARP_MIRROR", "http://deb.debian.org/debian")
KEPT = Path(os.environ.get("KIGVARP_ROOTS", Path.home() / ".cache/kigvarp-roots"))
PACKAGE, OLDEST = "bookworm", ("jessie", "stretch", "buster", "bullseye")
SECONDS = 900

# Places in which the system itself writes when a package comes and goes.
SYSTEM = ("var/lib/dpkg", "var/lib/apt", "var/cache", "var/log", "tmp", "dev", "proc", "etc/ld.so.cache")

# A command of a page with one of these words needs the kit or the repository.
NOT_THERE = re.compile(r"\brt\b|\bcrates/|\bpackaging/|\btests/|\bgit\b")


def missing():
    """What is not here that makes a fresh root, in words, or nothing."""
    if os.geteuid() != 0:
        return "no rights of root"
    names = [name for name in ("mmdebstrap", "chroot", "unshare", "tar") if not shutil.which(name)]
    return f"no {', '.join(names)}" if names else None


def can_be_had(suite):
    """Whether the mirror has this Debian."""
    try:
        request = urllib.request.Request(f"{MIRROR}/dists/{suite}/Release", method="HEAD")
        return urllib.request.urlopen(request, timeout=20).status == 200
    except OSError:
        return False


def make(suite):
    """Makes a root of this Debian and keeps it; gives its file, or nothing."""
    KEPT.mkdir(parents=True, exist_ok=True)
    half = KEPT / f"{suite}.{os.getpid()}.tar"
    more = ["--include=python3"] if suite == PACKAGE else []
    words = ["mmdebstrap", "--quiet", "--variant=minbase", *more, suite, str(half), MIRROR]
    try:
        subprocess.run(words, check=True, capture_output=True, timeout=SECONDS)
        return half.replace(KEPT / f"{suite}.tar")
    except (subprocess.SubprocessError, OSError) as fault:
        print(f"no root of {suite}: {fault}")
        half.unlink(missing_ok=True)
        return None


def root_of(room, *suites):
    """A fresh root of the first of these Debians that can be had: its name and its folder, or nothing."""
    for suite in suites:
        file = KEPT / f"{suite}.tar"
        if file.exists() or can_be_had(suite) and (file := make(suite)):
            root = room / f"root-{suite}"
            root.mkdir()
            done = run("tar", "-xpf", str(file), "-C", str(root))
            return (suite, root) if not done.returncode else print(f"{file} cannot be unpacked: {done.stderr.decode()}")
    return print(f"{MIRROR} cannot be reached, or has none of {', '.join(suites)}: there is no fresh root")


def inside(root, *words, user=None):
    """The words that run a program in a root, which has /proc for that time, as a running system has."""
    ids = ("--userspec=65534:65534",) if user else ()
    script = 'mount -t proc proc "$0/proc"; exec chroot "$@"'
    return ("env", "-i", "PATH=/usr/bin:/bin:/usr/sbin:/sbin", "LANG=C.UTF-8", "DEBIAN_FRONTEND=noninteractive",
            "unshare", "--mount", "sh", "-c", script, str(root), *ids, str(root), *words)


def files_in(root):
    return {it for it in left_in(root) if not it.startswith(SYSTEM)}


def commands(page):
    """The commands of a page that print something: each with what it prints."""
    found, is_code = [], False
    for line in page.read_text().splitlines():
        is_code = line == "```console" or is_code and line != "```"
        if is_code and line.startswith("$ "):
            found.append([[line[2:]], []])
        elif is_code and line.startswith("> ") and not found[-1][1] and found[-1][0][-1].endswith(("\\", "|")):
            found[-1][0].append(line[2:])
        elif is_code and line != "```console":
            found[-1][1].append(line)
    return [("\n".join(command), wanted) for command, wanted in found]


def agree(text, wanted):
    pattern = "".join(r"(?:.*\n)*" if line == ".." else re.escape(line) + r"\n" for line in wanted)
    return re.fullmatch(pattern, text) is not None


def trials_of_commands(root):
    """The commands of the installed pages print there what the pages say."""
    tried = 0
    for page in sorted((root / DOC).rglob("*.md")):
        for command, wanted in commands(page):
            if not NOT_THERE.search(command):
                script = f"cd /{DOC} && {{ {command}\n}} 2>&1"
                done = run(*inside(root, "sh", "-c", script, user=True), stdin=subprocess.DEVNULL)
                text, tried = done.stdout.decode("utf-8", "replace"), tried + 1
                yield f"{page.name} installed: {command[:70]}", not agree(text, wanted) and text[:600]
    yield "commands of installed pages", tried < 80 and f"only {tried} were found"


def trials_of_package(room, package):
    """It is installed by apt, used, and removed, and nothing is left."""
    found = root_of(room, PACKAGE)
    if not found:
        return
    _, root = found
    before = files_in(root)
    shutil.copy(package, root / "tmp/kigvarp.deb")
    apt = ("apt-get", "-qq", "-y", "--no-install-recommends")
    done = run(*inside(root, *apt, "install", "/tmp/kigvarp.deb"))
    yield "apt-get install", done.returncode and done.stderr.decode()
    yield from trials_of_examples("installed", root / DOC / "examples", "/usr/bin/rio", *inside(root, user=True))
    yield from trials_of_commands(root)
    done = run(*inside(root, *apt, "purge", "kigvarp"))
    yield "apt-get purge", done.returncode and done.stderr.decode()
    yield "what is left", sorted(files_in(root) ^ before)


def trials_of_archive(room, archive):
    """The archive for any Linux runs in the oldest Debian, from a folder of its own."""
    found = root_of(room, *OLDEST)
    if not found:
        return
    suite, root = found
    done = run("tar", "-xzf", str(archive), "-C", str(root / "opt"))
    yield f"tar in {suite}", done.returncode and done.stderr
    top = next((root / "opt").iterdir())
    where = inside(root, user=True)
    yield from trials_of_examples(f"in {suite}", top / "share/doc/kigvarp/examples", f"/opt/{top.name}/bin/rio", *where)
    print(f"the archive for any Linux was tried in {suite}, the oldest Debian that can be had here")


def trials(room, package, archive):
    if why := missing():
        print(f"{why} here: the package is not used in a fresh Debian, nor the archive for any Linux in an old one")
        return
    yield from trials_of_package(room, package)
    yield from trials_of_archive(room, archive)
