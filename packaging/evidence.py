"""What a reader needs to see what was proved: what the gate said, each contract, and what is trusted. The same
commit gives the same text, however much of the gate was kept from earlier runs."""
import re
from pathlib import Path

import gate
import pages
from contents import TOP, Stop

HEADS = r" *(pub )?(?:const )?(?:extern \"C\" )?fn (\w+)"
OWNERS = r"(?:pub )?(?:trait (\w+)|impl(?:<.*?>)? (?:(\w+)(?:<.*>)? for )?(\w+))"


def crates():
    """The crates in the order of crates.txt, and those that each names."""
    for line in (TOP / "crates.txt").read_text(encoding="utf-8").splitlines():
        name, colon, below = line.split("#")[0].partition(":")
        if colon:
            yield name.split()[0], below.split()


def is_whole(clause):
    return "{" in clause and clause.count("{") == clause.count("}")


def clauses(lines):
    """The clauses that stand between the head of a function and its body, each in one line."""
    found = []
    for line in lines:
        if re.match(r" +(ensures|requires)", line) and (not found or is_whole(found[-1])):
            found.append(line.strip())
        elif not found or is_whole(found[-1]):
            break
        else:
            found[-1] += f" {line.strip()}"
    return found


def behind_head(lines, at):
    """Where the contract of the function whose head begins here may begin: behind the line that ends its types."""
    while at < len(lines) and not re.match(r" +(ensures|requires)| *\{", lines[at]):
        if lines[at].rstrip().endswith(("{", ";")):
            return len(lines)
        at += 1
    return at


def contracts(path):
    """The public functions of a file, and the clauses of the contract of each."""
    owner, shared, lines = None, False, (TOP / path).read_text(encoding="utf-8").splitlines()
    for at, line in enumerate(lines):
        if head := re.match(OWNERS, line):
            owner, shared = head[1] or head[3], bool(head[1] or head[2])
        elif line == "}":
            owner, shared = None, False
        if (head := re.match(HEADS, line)) and (head[1] or shared):
            name = f"{owner}::{head[2]}" if owner else head[2]
            yield name, clauses(lines[behind_head(lines, at + 1) :])


def contract_lines():
    """The list of contracts: crate, function and clauses."""
    for crate, _ in crates():
        yield f"crate {crate}"
        for file in sorted((TOP / "crates" / crate / "src").rglob("*.rt")):
            for name, told in contracts(file.relative_to(TOP)):
                yield from (f"  {name}", *(f"    {clause}" for clause in told)) if told else ()
        yield ""


def paragraph(head):
    """A point of the list of README.md that says what is tested, trusted or neither."""
    lines = pages.lines_of("README.md")
    starts = [at for at, line in enumerate(lines) if line.startswith(f"- **{head}**")]
    if len(starts) != 1:
        raise Stop(1, f"README.md has {len(starts)} points that begin with {head}")
    begin = starts[0]
    end = next((at for at in range(begin + 1, len(lines)) if not lines[at].startswith("  ")), len(lines))
    return " ".join(line.strip("- ") for line in lines[begin:end]).replace("**", "")


def trusted_lines(record):
    """What is trusted, and what is not proved."""
    yield from (paragraph(head) for head in ("Trusted", "Only tested", "Neither"))
    yield from ("", f"Kit: {record.kit}", (TOP / "HANDLES").read_text(encoding="utf-8").strip(), "")
    own = dict(crates())
    for crate, below in own.items():
        of_kit = sorted(name for name in below if name not in own)
        yield f"{crate}: of the kit {', '.join(['std', *of_kit])}"


def gate_lines(record):
    """What the gate said at its end and of each crate, without what each run has of its own: times, and what was kept."""
    log = gate.LOG.read_text(encoding="utf-8", errors="replace") if gate.LOG.exists() else ""
    yield from (f"commit {record.commit}", f"kit {record.kit}", "")
    proved = set(re.findall(r"^rt: (\w+)(?: proved| is kept)", log, re.M))
    for crate, _ in crates():
        yield f"{crate}: {'proved' if crate in proved else 'no line of the log tells it'}"
    yield ""
    yield from re.findall(r"^rt: ok; .*(?=; (?:done in this run|every proof))", log, re.M)
    yield from (f"rt ci: {told}" for told in re.findall(r"^\d+ passed, \d+ failed$", log, re.M)[:1])
    yield from re.findall(r"^tests/\S+: \d+ passed, \d+ failed$", log, re.M)
    yield from (f"the gate: {record.result}", "")
    yield from (f"sha256 {sum} {path}" for path, sum in record.sums.items())


def texts(record):
    """Each text: the name of its file, and what stands in it."""
    told = {"contracts.txt": contract_lines(), "trusted.txt": trusted_lines(record), "gate.txt": gate_lines(record)}
    return {name: "".join(f"{line}\n" for line in lines).encode() for name, lines in told.items()}
