"""Writes a folder of cases as the tests of cwltest, or runs them by the words that cwltest gives to its tool, where that program is not here.

usage: cases.py CASES tests FILE       writes FILE, JSON that cwltest takes
       cases.py CASES run COMMAND..    runs COMMAND --outdir=DIR --quiet DOCUMENT [INPUTS] for each, and compares as cwltest does

Each folder of CASES that has a case.json is a case: `doc` and `inputs` name its files, `class` is how it ends, and `outputs` what a success gives. Files are compared by
class, basename, checksum and size, Directories by their listings. A test that is to fail passes with any status but 0, as in cwltest; here it also has to be that of its class.
"""

import json
import os
import subprocess
import sys
import tempfile

SECONDS = 120
# Which statuses a class may end with. What is refused may be refused as a document, as an input object, or before the run.
STATUS = {"success": (0,), "permanentFail": (1,), "temporaryFail": (2,), "refused": (33,), "refused-inputs": (33, 1)}


def cases(top):
    for name in sorted(os.listdir(top)):
        path = f"{top}/{name}/case.json"
        if os.path.exists(path):
            with open(path) as it:
                yield name, json.load(it)


def written(top, file):
    tests = []
    for name, case in cases(top):
        test = {"id": name, "doc": case["feature"], "tool": f"{top}/{name}/{case['doc']}", "tags": ["required"], "output": case.get("outputs", {})}
        if case.get("inputs"):
            test["job"] = f"{top}/{name}/{case['inputs']}"
        if case["class"] != "success":
            test["should_fail"] = True
        tests.append(test)
    with open(file, "w") as it:
        json.dump(tests, it, indent=1)
    return 0


def plain(value):
    """Returns a value without what cwltest does not compare."""
    if isinstance(value, list):
        return [plain(it) for it in value]
    if not isinstance(value, dict):
        return value
    if value.get("class") not in ("File", "Directory"):
        return {name: plain(it) for name, it in value.items()}
    found = {name: value[name] for name in ("class", "basename", "checksum", "size") if value.get(name) is not None}
    for name in ("secondaryFiles", "listing"):
        if value.get(name):
            found[name] = sorted((plain(it) for it in value[name]), key=lambda it: it.get("basename", ""))
    return found


def wrong(top, name, case, command):
    """Runs a case as cwltest does, and returns what is wrong, or nothing."""
    files = [f"{top}/{name}/{case[it]}" for it in ("doc", "inputs") if case.get(it)]
    with tempfile.TemporaryDirectory() as room:
        words = [*command, f"--outdir={room}/out", "--quiet", *files]
        ran = subprocess.run(words, cwd=room, stdin=subprocess.DEVNULL, stdout=subprocess.PIPE, stderr=subprocess.PIPE, text=True, timeout=SECONDS, check=False)
    expected = STATUS.get(case["class"], (3,))
    if ran.returncode not in expected:
        return f"it ended with {ran.returncode}, where {' or '.join(map(str, expected))} was meant: {ran.stderr.strip()}"
    if ran.returncode == 0 and plain(json.loads(ran.stdout)) != plain(case["outputs"]):
        return f"it printed {ran.stdout.strip()}"
    return ""


def main(top, what, *words):
    top = os.path.realpath(top)
    if what == "tests":
        return written(top, *words)
    passed = failed = 0
    for name, case in cases(top):
        said = wrong(top, name, case, words)
        passed, failed = passed + (not said), failed + bool(said)
        if said:
            print(f"Test {name} failed: {said}")
    print(f"{passed} tests passed, {failed} failures")
    return 1 if failed else 0


if __name__ == "__main__":
    sys.exit(main(*sys.argv[1:]) if len(sys.argv) > 3 else print(__doc__) or 2)
