"""The manual page and the completion of each program have all that its pages and its help have."""
import gzip
import re
import shutil

from .trees import PROGRAMS, TOP, run

# Tables whose rows are words, statuses, reasons and kinds of lines: each is on the manual page of the program.
PAGES = {"rio_capture": ("captures.md",), "rio": ("running.md", "decode.md", "script-format.md"), "rio_lane": ("lanes.md",),
         "rio_follow": (), "rio_conform": ("conformance.md",),
         "rio_live": ("script-format.md",), "rio_port": ("live.md",), "rio_view": ("pictures.md",)}
# The library has one manual page for all its calls.
LIBRARY = {"kigvarp": ("library.md",)}
# What begins a line that a program reads is no word of its command: no completion has it.
READ = {"rio_port": {"got", "turn", "timeout", "send", "take", "state", "clock", "reset"},
        "rio_conform": {"accepted", "packet", "part", "data"},
        "rio_live": {"quiet", "loud", "serve", "ask", "standard", "external", "sent"},
        "rio_follow": {"lawful", "unlawful", "refused", "answered", "wrong"}}
HEADS = ("words", "word", "character", "status", "reason", "line", "REASON", "column", "call of a port", "call of a fabric",
         "call of a checker", "call without a handle")


def rows_of(page):
    """Each row of a page's tables of words, statuses, reasons and lines: its cells without marks."""
    head = above = None
    for line in (TOP / "docs" / page).read_text().splitlines():
        cells = [" ".join(it.replace("`", "").replace("*", "").split()) for it in line.split("|")[1:-1]]
        if not cells:
            head = None
        elif head is None:
            head = cells[0]
        elif head in HEADS and not line.startswith("|--"):
            above = [old if cell == "the same" else cell for cell, old in zip(cells, above or cells)]
            yield above


def trials_of_rows(name, text):
    """The manual page has each row of the tables."""
    flat = " ".join(text.split())
    for page in (PAGES | LIBRARY)[name]:
        for first, *others in rows_of(page):
            tag = r"^ *" + re.sub(r"\\? ", r"\\s+", re.escape(first)) + r"(\s|$)"
            yield f"{page}: {first}", not re.search(tag, text, re.M) and f"begins no line of {name}.1"
            for cell in others:
                yield f"{page}: {first}", cell not in flat and f"{name}.1 lacks '{cell}'"


def trials_of_manual(name, source):
    """The manual page is laid out within 80 columns, and names its version."""
    if not shutil.which("groff"):
        print("no groff here: the manual page is not laid out")
        return
    done = run("groff", "-man", "-Tascii", "-P-cbou", "-rLL=78n", "-ww", input=source)
    yield f"groff of {name}.1", done.stderr and done.stderr.decode()
    text = done.stdout.decode()
    wide = [line for line in text.splitlines() if len(line) > 80]
    yield f"80 columns of {name}.1", wide and wide
    marks = re.findall(r".*(?:`|\*\*|\]\().*", text)
    yield f"marks of a page in {name}.1", marks and marks
    yield from trials_of_rows(name, text)


def helped(program):
    """The words with which the lines of a program's help begin: commands, views and options."""
    done = run(str(program), "--help")
    text = (done.stdout + done.stderr).decode()
    return set(re.findall(r"^ {0,4}((?:--)?[a-z]+\d*)(?: .*?)?  ", text, re.M))


def trials_of_words(root, name, page):
    """The completion and the manual page have each word of the program's help."""
    file = root / f"usr/share/bash-completion/completions/{name}"
    script = f'. "{file}"; for COMP_CWORD in 1 2; do COMP_WORDS=({name} ""); _{name}; echo "${{COMPREPLY[@]}}"; done'
    done = run("bash", "-c", script)
    told = set(done.stdout.decode().split()) | READ.get(name, set())
    yield f"completion of {name}", done.stderr and done.stderr.decode()
    for word in helped(root / f"usr/bin/{name}"):
        yield f"completion of {name}: {word}", word not in told and "it is not completed"
        yield f"manual of {name}: {word}", not re.search(rf"(?<![\w-]){word}(?![\w-])", page) and "it is not there"


def trials_of_version(root, name):
    """The program says what version it is: the number of the package without what stands behind it."""
    number = run(str(TOP / "packaging/version")).stdout.decode().strip()
    done = run(str(root / f"usr/bin/{name}"), "--version")
    told = (done.stdout + done.stderr).decode()
    yield f"version of {name}", f"{name} {number}, proved with rattle logic" not in told and told


def trials_of_library(root):
    """The manual page of the library has all calls and statuses, and each call leads to it."""
    place = root / "usr/share/man/man3"
    source = gzip.decompress((place / "kigvarp.3.gz").read_bytes())
    yield from trials_of_manual("kigvarp", source)
    header = (root / "usr/include/kigvarp.h").read_text()
    for name in re.findall(r"^uint32_t (kigvarp_\w+)\(", header, re.M):
        yield f"manual of {name}", not (place / f"{name}.3.gz").exists() and "it is not there"
        yield f"{name} in kigvarp.3", name.encode() not in source and "it is not there"
    for name in re.findall(r"^  (KIGVARP_\w+) = \d+,? +/\*", header.split("Room that")[0], re.M):
        yield f"{name} in kigvarp.3", name.encode() not in source and "it is not there"


def trials(root, version):
    """What is said of each program that is unpacked here."""
    yield from trials_of_library(root)
    for name in PAGES:
        source = gzip.decompress((root / f"usr/share/man/man1/{name}.1.gz").read_bytes())
        yield f"version of {name}.1", f"kigvarp {version}".encode() not in source and "it has another"
        yield from trials_of_manual(name, source)
        yield from trials_of_version(root, name) if name in PROGRAMS else ()
        yield from trials_of_words(root, name, re.sub(r"\\f.", "", source.decode().replace("\\-", "-")))
