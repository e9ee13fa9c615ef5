"""What the prover is told of a crate, to have it work over the libraries that the gate has just proved. 'rt' makes them
anew behind 'rt ci', from nothing."""
import subprocess
from pathlib import Path

from contents import TOP

KIT = Path(subprocess.run(["sh", "-c", "readlink -f \"$(command -v rt)\""], capture_output=True, text=True,
                          check=True).stdout.strip()).parent.parent
RATTLE = f"{KIT}/bin/rattle"


def rlib(crate, own):
    """Where the library of a crate stands."""
    if crate in own:
        return TOP / "crates" / crate / "out/rlib" / f"{crate}.rlib"
    return KIT / "rlibs" / f"{crate}.rlib"


def below(crate, own):
    """The crates of the repository that a crate stands on."""
    found = []
    for name in own[crate]:
        if name in own:
            found += [it for it in [*below(name, own), name] if it not in found]
    return found


def words(crate, own):
    """The words that 'rt' gives the prover for a library: its name, what it stands on, and the logic."""
    externs = [f"{name}={rlib(name, own)}" for name in dict.fromkeys(["std", *own[crate]])]
    folders = [KIT / "rlibs", *(rlib(name, own).parent for name in below(crate, own))]
    told = ["--crate-name", crate, "src/lib.rt"]
    told += [word for it in externs for word in ("--extern", it)]
    told += [word for it in folders for word in ("-L", f"dependency={it}")]
    return [*told, "--antt-project", f"{KIT}/rattle/logic/antt-project.json", "--logic-built", f"{KIT}/logic_built",
            "--jobs", "1"]
