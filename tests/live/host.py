"""The boot host in C numbers fabrics of rio_live: it finds the devices that `rio enumerate` finds, and reaches each
endpoint by the ID that it gave it.

usage: host.py HOST FABRIC RIO    HOST: examples/live/host.c, compiled; FABRIC: rio_live. The status is 0 if all is as
                                  wanted.
"""
import pathlib
import subprocess
import sys

RING = pathlib.Path(__file__).parents[2] / "examples" / "ring.fabric"
PAIR = "endpoint H 7\nendpoint A 255\nlink H.0 A.0\n"
TREE = """endpoint H 0
endpoint A 255
endpoint B 255
endpoint C 255
switch S 3
switch T 3
switch U 2
link H.0 S.2
link S.0 T.2
link S.1 U.0
link T.0 A.0
link T.1 B.0
link U.1 C.0
"""


def lines(command, text):
    done = subprocess.run(command, input=text, capture_output=True, text=True, timeout=60, check=True)
    return done.stdout.splitlines()


def main(host, fabric, rio):
    for text in (RING.read_text(), PAIR, TREE):
        found = lines([host, fabric, "H"], text)
        wanted = [line.split() for line in lines([rio, "enumerate", "H"], text) if line.startswith("device ")]
        # the host in C does not count itself; of a switch the ports are told, of an endpoint that there is one
        kinds = sorted(words[2:4] if words[2] == "switch" else ["endpoint"] for words in wanted if words[-1] != "host")
        got = sorted(line.split()[:2] if line.startswith("switch") else ["endpoint"] for line in found)
        assert got == kinds and len(got) > 0, (found, wanted)
        assert not [line for line in found if "not reached" in line], found
        paths = [line.split()[2] if len(line.split()) > 2 else "" for line in found]
        assert len(set(paths)) == len(paths), found


if __name__ == "__main__":
    main(*sys.argv[1:])
