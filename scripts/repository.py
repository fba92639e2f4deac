"""What the scripts of this folder share: the crates of crates.txt, their lines and their order."""

import os
import re
import shutil
import sys

TOP = os.path.dirname(os.path.dirname(os.path.realpath(__file__)))


def need(*programs):
    """Ends the script with a word where one of these programs is not in PATH."""
    for it in programs:
        if not shutil.which(it):
            whose = ", the toolchain Rattle's command," if it == "rt" else ""
            print(f"{os.path.basename(sys.argv[0])}: there is no {it}{whose} in PATH", file=sys.stderr)
            sys.exit(2)


def lines_of_crates():
    """Returns the lines of crates.txt, each by the crate that it is of."""
    found = {}
    with open(f"{TOP}/crates.txt", encoding="utf-8") as it:
        for line in it:
            name, colon, _ = line.partition("#")[0].partition(":")
            if colon:
                found[name.split()[0]] = line if line.endswith("\n") else f"{line}\n"
    return found


def crates():
    """Returns the crates of crates.txt by name, each with the repository's crates that it uses."""
    found = lines_of_crates()
    used = {name: line.partition("#")[0].partition(":")[2].split() for name, line in found.items()}
    return {name: [it for it in those if it in found] for name, those in used.items()}


def below(name, known):
    """Returns the crates below this one, each after those that it uses."""
    found = []
    for used in known[name]:
        found += [it for it in [*below(used, known), used] if it not in found]
    return found


def files(name, *endings):
    """Returns the crate's files with one of these endings, by their paths."""
    found = []
    for part in ("src", "specs", "proofs"):
        for at, folders, names in os.walk(f"{TOP}/crates/{name}/{part}"):
            folders.sort()
            found += [f"{at}/{it}" for it in sorted(names) if it.endswith(endings)]
    return found


def text_of(file):
    with open(file, encoding="utf-8", errors="replace") as it:
        return it.read()


def test_crates():
    """Returns the crates that are tests, as their names say: `tests`, and those that begin with `test_`."""
    return {it for it in crates() if it == "tests" or it.startswith("test_")}


def lines(name):
    """Returns how many lines of code, definitions and proofs the crate has."""
    return sum(text_of(it).count("\n") for it in files(name, ".rt", ".antt"))


def has_tests(name):
    return any(re.search(r"#\s*\[[^]]*\btest\b", text_of(it)) for it in files(name, ".rt"))


def edits(folder):
    """Returns the edits that stand right in this folder, by their paths."""
    if not os.path.isdir(folder):
        return []
    return [f"{folder}/{it}" for it in sorted(os.listdir(folder)) if it.endswith(".edit")]


def bare(text, comment):
    """Returns a text of code (whose comments begin with `//`) or of definitions (`--`) without comments and layout."""
    kept = re.sub(rf'("(?:[^"\\]|\\.)*")|{comment}[^\n]*', lambda it: it[1] or " ", text)
    return " ".join(kept.split())


def why_of(edit):
    """Returns what the edit is, in words: its line `why:`, or nothing."""
    held = re.search(r"(?m)^why: (.*)$", text_of(edit))
    return held[1].strip() if held else ""


def version():
    """Returns the program's version, which stands in one place: in the text of the program. (Tests look at repositories without it.)"""
    file = f"{TOP}/crates/program_words/src/version.rt"
    found = re.search(r'VERSION: &str = "([^"]+)"', text_of(file)) if os.path.isfile(file) else None
    return found[1] if found else ""
