"""The package is unpacked, installed into an empty root and removed, and the examples run there."""
import os
import shutil

from .trees import DOC, run

# What runs which examples: the ending of the input, the words, and the ending of what is written.
EXAMPLES = ((".script", "replay", ".trace"), (".chars", "decode", ".lines"))


def trials_of_examples(what, examples, program, *before):
    """A program writes for each example in a folder what stands beside it."""
    for ending, words, written in EXAMPLES:
        files = [it for it in sorted(examples.glob(f"*{ending}")) if it.with_suffix(written).exists()]
        yield f"{what}: examples of rio {words}", not files and "there is none"
        for file in files:
            wanted = file.with_suffix(written).read_bytes()
            status = 7 if wanted.splitlines()[-1].startswith(b"undetected") else 0
            done = run(*before, str(program), words, cwd=examples, input=file.read_bytes())
            well = done.stdout == wanted and done.returncode == status
            yield f"{what}: {file.name}", not well and f"status {done.returncode}, other output: {done.stderr[:300]}"


def left_in(root):
    return {str(it.relative_to(root)) for it in root.rglob("*") if not it.is_dir()}


def trials_of_unpacking(root, package, files):
    """Without any rights: it is unpacked, and what stands there works."""
    done = run("dpkg-deb", "-x", str(package), str(root))
    yield "dpkg-deb -x", done.returncode and done.stderr
    yield "unpacked files", left_in(root) != set(files) and f"{left_in(root) ^ set(files)}"
    yield from trials_of_examples("unpacked", root / DOC / "examples", root / "usr/bin/rio")


def trials_of_dpkg(root, package):
    """With the rights of root: dpkg installs it into an empty root and purges it again."""
    if os.geteuid() != 0 or not shutil.which("dpkg"):
        print("no rights or no dpkg here: the package is unpacked, but not installed and removed")
        return
    (root / "var/lib/dpkg/updates").mkdir(parents=True)
    (root / "var/lib/dpkg/info").mkdir()
    (root / "var/lib/dpkg/status").touch()
    dpkg = ("dpkg", f"--root={root}", "--log=/dev/null", "--force-depends", "--force-unsafe-io")
    done = run(*dpkg, "--install", str(package))
    yield "dpkg --install", done.returncode and done.stderr
    yield "program of dpkg", not (root / "usr/bin/rio").exists() and "it is not there"
    done = run(*dpkg, "--purge", "kigvarp")
    yield "dpkg --purge", done.returncode and done.stderr
    left = sorted(str(it) for it in root.iterdir() if it.name != "var")
    yield "what is left", left and left
