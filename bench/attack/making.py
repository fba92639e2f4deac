"""Stops the making of a record by `kill -9` at each call that writes or syncs a file, one after the other, and runs again.

usage: making.py PROGRAM

A run with a new record is stopped at its first such call, then at its second, and so on until one ends by itself. After each stop the work folder is removed and the same
run has to end with the right output; the record then has its one row, and sqlite3 says `ok` of it. It prints how many stops there were, and each thing that is not so. The
status is 1 if there is one. Needs Linux, strace, sqlite3 and Python 3.8 or later.
"""

import json
import os
import shutil
import subprocess
import sys
import tempfile

CALLS = "pwrite64,fsync,fdatasync,ftruncate"
TOOL = {"cwlVersion": "v1.2", "class": "CommandLineTool", "baseCommand": ["printf", "abc"], "inputs": {}, "outputs": {"out": "stdout"}, "stdout": "out.txt"}
# More calls than a run of one job makes.
MOST = 1000


def run(words, **how):
    return subprocess.run(words, stdin=subprocess.DEVNULL, stdout=subprocess.PIPE, stderr=subprocess.PIPE, text=True, **how)


def wrong_after(program, folder):
    """Returns what is not as it has to be once the run is made again, or nothing."""
    shutil.rmtree(f"{folder}/cwl-work", ignore_errors=True)
    ran = run([program, "run", "--record", "jobs.db", "tool.json"], cwd=folder)
    if ran.returncode:
        return f"the next run ended with {ran.returncode}: {ran.stderr.strip()}"
    if json.loads(ran.stdout)["out"]["size"] != 3:
        return f"the next run answered {ran.stdout.strip()}"
    rows = run([program, "record", "jobs.db"], cwd=folder)
    if rows.returncode or len(rows.stdout.splitlines()) != 1:
        return f"the record shows {rows.stdout.strip() or rows.stderr.strip()}"
    whole = run(["sqlite3", "jobs.db", "PRAGMA integrity_check"], cwd=folder).stdout.strip()
    return "" if whole == "ok" else f"sqlite3 says {whole}"


def main(program):
    program, stops, wrong = os.path.abspath(program), 0, 0
    for number in range(1, MOST):
        with tempfile.TemporaryDirectory() as folder:
            with open(f"{folder}/tool.json", "w", encoding="utf-8") as it:
                json.dump(TOOL, it)
            inject = f"inject={CALLS}:signal=KILL:when={number}"
            words = ["strace", "-f", "-o", "/dev/null", "-e", f"trace={CALLS}", "-e", inject, program, "run", "--record", "jobs.db", "tool.json"]
            if not run(words, cwd=folder).returncode:
                break
            stops += 1
            said = wrong_after(program, folder)
            if said:
                wrong += 1
                print(f"stop {number}: {said}", flush=True)
    print(f"{stops} stops while a record was made, {wrong} not as it has to be")
    return 1 if wrong or not stops else 0


if __name__ == "__main__":
    sys.exit(main(sys.argv[1]))
