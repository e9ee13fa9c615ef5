"""What is handed out with a release: its files, their sums, the list of what is inside, and the evidence."""
import hashlib
import json
import re
import shutil
import tarfile

from .installed import trials_of_examples
from .trees import DOC, KIT, PROGRAMS, RESULT, TOP, run


def trials_of_sums(folder):
    """The sums are those of all files of the folder."""
    done = run("sha256sum", "--check", "--strict", "--quiet", "SHA256SUMS", cwd=folder)
    yield "sums of a release", done.returncode and done.stdout.decode()
    named = {line.split("  ")[1] for line in (folder / "SHA256SUMS").read_text().splitlines()}
    yield "files of a release", named != {it.name for it in folder.iterdir()} - {"SHA256SUMS"} and named


def trials_of_list(folder, files):
    """The list of what is inside has each file and each source with its sum, and the kit."""
    told = json.loads(next(folder.glob("*.spdx.json")).read_text())
    yield "form of the list", told["spdxVersion"] != "SPDX-2.3" and told["spdxVersion"]
    sums = {it["fileName"]: it["checksums"][1]["checksumValue"] for it in told["files"]}
    own = {f"./{path}": hashlib.sha256(it[0]).hexdigest() for path, it in files.items() if not isinstance(it, str)}
    yield "files of the list", [it for it in own if sums.get(it) != own[it]]
    for path in ("crates/rio_cli/src/main.rt", "crates/link_port/specs/Lib.antt", "README.md"):
        wanted = hashlib.sha256((TOP / path).read_bytes()).hexdigest()
        yield f"{path} in the list", sums.get(f"./source/{path}") != wanted and "it has another sum"
    names = {it["SPDXID"] for it in told["packages"] + told["files"]} | {"SPDXRef-DOCUMENT"}
    yield "names of the list", len(names) != len(told["packages"] + told["files"]) + 1 and "a name is taken twice"
    for it in told["relationships"]:
        yield "relation of the list", {it["spdxElementId"], it["relatedSpdxElement"]} - names
    kit = [it["versionInfo"] for it in told["packages"] if it["name"] == "rattle-kit"]
    yield "kit of the list", kit != [KIT] and kit


def trials_of_evidence(folder):
    """The evidence has what the gate said, contracts whole and in order, and what is trusted."""
    gate = (folder / "gate.txt").read_text()
    for line in ("rio_chars: proved", "rio_view: proved", f"kit {KIT}", "rt ci: 5 passed, 0 failed",
                 "rt: ok; handles allowed: none; must-fail edits: 9 refused", "tests/run: 6 passed, 0 failed",
                 f"the gate: {RESULT}"):
        yield f"gate.txt: {line}", line not in gate.splitlines() and "it is not there"
    contracts = (folder / "contracts.txt").read_text()
    crates = re.findall(r"^(\w+)(?: staticlib)?:", (TOP / "crates.txt").read_text(), re.M)
    yield "crates of contracts.txt", re.findall(r"^crate (\w+)$", contracts, re.M) != crates and "others are there"
    for line in ("  question_of", "    ensures held { held_of event.now result.held ≡ (acts self.old event.now).held }"):
        yield f"contracts.txt: {line}", line not in contracts.splitlines() and "it is not there"
    halves = [it for it in contracts.splitlines() if it.startswith("    ") and it.count("{") != it.count("}")]
    yield "clauses of contracts.txt", halves[:3]
    trusted = (folder / "trusted.txt").read_text()
    for line in (f"Kit: {KIT}", "Handles allowed: none.", "rio_framer: of the kit std, arrayvec"):
        yield f"trusted.txt: {line}", line not in trusted.splitlines() and "it is not there"
    yield "trusted.txt", not trusted.startswith("Trusted: The kit") and trusted[:80]


def trials_of_archive(room, archive):
    """The archive for any Linux runs here with its own C library, from any folder and by a link."""
    with tarfile.open(archive) as file:
        file.extractall(room)
    top = next(room.iterdir())
    examples = top / DOC.partition("/")[2] / "examples"
    yield from trials_of_examples("any Linux", examples, top / "bin/rio")
    (room / "link").symlink_to(top / "bin/rio")
    done = run(str(room / "link"), "--version", cwd=room)
    yield "by a link", b"proved with" not in done.stderr and done.stderr
    for name in PROGRAMS:
        status = run(str(top / f"bin/{name}"), input=b"").returncode
        yield f"any Linux: {name}", status not in (0, 2, 3) and f"status {status}"


def trials(room, folder, files):
    """All of a release."""
    yield from trials_of_sums(folder)
    yield from trials_of_list(folder, files)
    yield from trials_of_evidence(folder)
    if shutil.which("readlink"):
        (room / "any").mkdir()
        yield from trials_of_archive(room / "any", next(folder.glob("*-any.tar.gz")))
