"""What is tried with a program, by scripts/test with one compiled with checks, and by scripts/gate with the proved one: each part once."""

import os
import re
import subprocess
import sys

import repository

# What needs no program: code that answers out of memory at will, tests of these scripts, pages that say what the code doesn't, promises that rest on more.
CHECKS = [["out-of-memory"], ["test-gate"], ["test-build"], ["test-pages"], ["test-try"], ["test-habits"], ["test-lab"], ["test-out-of-memory"], ["test-wrong-bodies"], ["true-pages"], ["believe", "--check"]]
# Each part, and the words that stand before the program's path. The last line of a script that tried something is `NAME: N passed, M failed`.
PARTS = [
    ("the program's rows", ["test-program"]),
    ("the importer's tests", ["test-import"]),
    ("README's first workflow", ["readme"]),
    ("the examples", ["examples"]),
    ("the mistakes", ["mistakes"]),
    ("the picture of a plan", ["test-dot"]),
    ("a terminal", ["test-terminal"]),
    ("requests for memory that are refused", ["test-memory"]),
    ("jobs by Slurm", ["test-slurm"]),
    ("a package", ["test-package", "--of"]),
    ("documents of laboratories", ["lab"]),
    ("larger workflows", ["test-unfolding"]),
]
# The parts that are tried with another program, by the crate that it is of.
OTHERS = {"test-unfolding": "tests"}


def passes(check):
    """Says whether one of CHECKS passes."""
    return subprocess.run([f"{repository.TOP}/scripts/{check[0]}", *check[1:]], check=False).returncode == 0


def tried(name, words, program):
    """Tries a part with the program, if one is given, and prints what it says. Returns how many passed and failed of what it counts: none if it can't be tried here."""
    print(f"{os.path.basename(sys.argv[0])}: {name}", file=sys.stderr, flush=True)
    more = filter(None, [os.environ.get("LAB_SUITE")]) if words == ["lab"] else []
    room = {name: it for name, it in os.environ.items() if name != "DEPAROHI"}
    ran = subprocess.run([f"{repository.TOP}/scripts/{words[0]}", *words[1:], *filter(None, [program]), *more], env=room, stdin=subprocess.DEVNULL, stdout=subprocess.PIPE, check=False)
    sys.stdout.buffer.write(ran.stdout)
    sys.stdout.flush()
    said = re.search(rb"(?:\A|\n)[\w-]+: (\d+) passed, (\d+) failed\n\Z", ran.stdout)
    passed, failed = map(int, said.groups()) if said else (0, 0)
    return passed, max(failed, int(ran.returncode != 0))
