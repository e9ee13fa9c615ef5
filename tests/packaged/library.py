"""The installed library is used from C and from Python."""
import re
import shutil
import sys

from .trees import TOP, run

LIBRARIES = "usr/lib/x86_64-linux-gnu"


def trials(root):
    """The first program of docs/library.md is built by what pkg-config says, and the module of Python is found."""
    if not all(map(shutil.which, ("cc", "pkg-config"))):
        print("no cc or pkg-config here: no program is built with the installed library")
        return
    text = (TOP / "docs/library.md").read_text()
    source, wanted = re.search(r"```c\n(.*?)```", text, re.S)[1], re.search(r"It prints `(\w+)`", text)[1]
    room = root.parent / "library"
    room.mkdir()
    (room / "packet.c").write_text(source)
    env = {"PKG_CONFIG_PATH": str(root / LIBRARIES / "pkgconfig"), "LD_LIBRARY_PATH": str(root / LIBRARIES),
           "PYTHONPATH": str(root / "usr/lib/python3/dist-packages"), "PYTHONDONTWRITEBYTECODE": "1"}
    words = run("pkg-config", "--cflags", "--libs", "kigvarp", env=env).stdout.decode().split()
    done = run("cc", "-o", str(room / "packet"), str(room / "packet.c"), *words)
    yield "cc with pkg-config", done.returncode and done.stderr.decode()
    done = run(str(room / "packet"), env=env)
    yield "packet of C", done.stdout.decode().strip() != wanted and f"status {done.returncode}, {done.stdout!r}"
    done = run(sys.executable, "-c", "import kigvarp; print(kigvarp.Port().state().output)", env=env)
    yield "module of Python", done.stdout != b"ok\n" and done.stderr.decode()
