"""Refuses one request for memory of a whole run, the first one, the second one, and so on until none is met, and asks that the run says so or ends as it would.

usage: memory.py [--every N] PROGRAM [WORD..]        WORD picks the runs that have it; with `--every 50` the first request, the 51st and so on

The program is the proved one, whose memory is malloc's: malloc.c stands in for it, and is built by cc. A program that checks itself has a malloc of its own, so it is not taken.
The runs: a tool; a scatter over two lists, crosswise; a step that runs only where an input says so, over three; two jobs one after the other with a record and an archive that
have both; and the same where an archived file was altered. A run in which a request was refused
- ends with the right output and status 0, where what was refused was not needed (a row that is not put is a note), or with status 3, nothing on standard output, and
  `fault: OutOfMemory`, or R4 where the store said so, or, before the words are read, a line on the command line;
- has waited for its children: none of them runs on;
- leaves no work folder, or one that is in the way of the next run by name, and a record whose rows are those that were put: the same run without a refusal then ends as it has to.
It prints for each run how many requests it has and how many ended how. The status is 1 where something is not so. Needs Linux, cc and Python 3.8 or later.
"""

import collections
import hashlib
import json
import os
import shutil
import subprocess
import sys
import tempfile
import time

SECONDS = 120
HERE = os.path.dirname(os.path.realpath(__file__))


def tool(script, inputs, **more):
    made = {"class": "CommandLineTool", "baseCommand": ["sh", "-c", script, "sh"], "stdout": "o", "outputs": {"o": "stdout"}}
    made["inputs"] = {name: {"type": kind, "inputBinding": {"position": at}} for at, (name, kind) in enumerate(inputs.items())}
    return {**made, **more}


def workflow(inputs, outputs, steps):
    requirements = {"ScatterFeatureRequirement": {}}
    return {"cwlVersion": "v1.2", "class": "Workflow", "requirements": requirements, "inputs": inputs, "outputs": outputs, "steps": steps}


SAY = tool('printf %s "$*"', {"a": "string", "b": "string?"})
COPY = tool('cat "$1"', {"f": "File"})
HELLO = {"cwlVersion": "v1.2", **SAY}
CROSS = workflow(
    {"as": "string[]", "bs": "string[]"},
    {"o": {"type": "File[]", "outputSource": "say/o"}},
    {"say": {"run": SAY, "scatter": ["a", "b"], "scatterMethod": "flat_crossproduct", "in": {"a": "as", "b": "bs"}, "out": ["o"]}},
)
WHEN = workflow(
    {"as": "string[]", "xs": "boolean[]"},
    {"o": {"type": "File[]", "outputSource": "say/o", "pickValue": "all_non_null"}},
    {"say": {"run": SAY, "when": "$(inputs.x)", "scatter": ["a", "x"], "scatterMethod": "dotproduct", "in": {"a": "as", "x": "xs"}, "out": ["o"]}},
)
CHAIN = workflow(
    {"a": "string"},
    {"o": {"type": "File", "outputSource": "copy/o"}},
    {"say": {"run": SAY, "in": {"a": "a"}, "out": ["o"]}, "copy": {"run": COPY, "in": {"f": "say/o"}, "out": ["o"]}},
)
# The name of a run, its document and inputs, the contents of its outputs, and what stands before it: nothing, a record and an archive, or those with an altered file.
RUNS = [
    ("a tool", HELLO, {"a": "abc"}, ["abc"], ""),
    ("a scatter, crosswise", CROSS, {"as": ["a", "b"], "bs": ["c", "d"]}, ["a c", "a d", "b c", "b d"], ""),
    ("a step that runs where an input says so", WHEN, {"as": ["a", "b", "c"], "xs": [True, False, True]}, ["a", "c"], ""),
    ("two jobs, a record and an archive that have both", CHAIN, {"a": "abc"}, ["abc"], "archived"),
    ("two jobs, of one of which the archive was altered", CHAIN, {"a": "abc"}, ["abc"], "altered"),
]


class Scene:
    """A folder for one of the runs."""

    def __init__(self, folder, program, refuser, run):
        self.folder, self.program, self.refuser = folder, program, refuser
        _, document, inputs, contents, self.before = run
        self.sums = [f"sha1${hashlib.sha1(it.encode()).hexdigest()}" for it in contents]
        os.makedirs(folder)
        for name, value in (("document", document), ("inputs", inputs)):
            with open(f"{folder}/{name}", "w") as it:
                json.dump(value, it)
        if self.before:
            status, said, told = self.ran(0)
            if self.wrong_output(status, said) or told:
                sys.exit(f"the first run ends with {status}: {said} {told}")
            self.keep()

    def keep(self):
        """Keeps the record and the archive as they are, or with an altered file, for each of the runs."""
        if self.before == "altered":
            found = [f"{at}/{name}" for at, _, names in os.walk(f"{self.folder}/files") for name in names]
            with open(sorted(found)[0], "w") as it:
                it.write("abd")
        os.makedirs(f"{self.folder}/kept")
        shutil.copytree(f"{self.folder}/files", f"{self.folder}/kept/files")
        shutil.copy(f"{self.folder}/jobs.db", f"{self.folder}/kept/jobs.db")

    def again(self):
        for it in ("out", "work", "files"):
            shutil.rmtree(f"{self.folder}/{it}", ignore_errors=True)
        for it in ("jobs.db", "jobs.db-wal", "refused"):
            if os.path.exists(f"{self.folder}/{it}"):
                os.remove(f"{self.folder}/{it}")
        if self.before:
            shutil.copytree(f"{self.folder}/kept/files", f"{self.folder}/files")
            shutil.copy(f"{self.folder}/kept/jobs.db", f"{self.folder}/jobs.db")

    def ran(self, number):
        """Runs, with the request of this number refused, and returns the status, what was printed and the errors."""
        more = ["--record", "jobs.db", "--archive", "files"] if self.before else []
        words = [self.program, "run", "--slots", "2", "--work", "work", "--outdir", "out", *more, "document", "inputs"]
        room = {"PATH": "/usr/bin:/bin", "LD_PRELOAD": self.refuser, "REFUSE": str(number), "REFUSED": f"{self.folder}/refused"}
        ran = subprocess.run(words, cwd=self.folder, env=room, stdin=subprocess.DEVNULL, stdout=subprocess.PIPE, stderr=subprocess.PIPE, text=True, timeout=SECONDS, check=False)
        return ran.returncode, ran.stdout, ran.stderr

    def wrong_output(self, status, said):
        if status:
            return [f"it ends with {status}"]
        found = json.loads(said)["o"] if said else []
        sums = [it.get("checksum") for it in (found if isinstance(found, list) else [found])]
        return [] if sums == self.sums else [f"it printed {said}"]

    def children(self):
        """Returns the processes that stand in the work folder."""
        found = []
        for number in filter(str.isdigit, os.listdir("/proc")):
            try:
                if os.readlink(f"/proc/{number}/cwd").startswith(f"{self.folder}/work"):
                    found.append(number)
            except OSError:
                continue
        return found

    def tried(self, number):
        """Refuses a request of a run. Returns whether it was met, how the run ended, and what is wrong about it."""
        self.again()
        status, said, told = self.ran(number)
        if not os.path.exists(f"{self.folder}/refused"):
            return False, "no refusal", self.wrong_output(status, said) + ([told] if told else [])
        wrong = [f"{len(self.children())} children run on"] if self.children() else []
        first = told.partition("\n")[0]
        if status == 0 and not told:
            ended = "the right output"
            wrong += self.wrong_output(status, said)
        elif status == 3 and not said and (first in ("fault: OutOfMemory", "fault: R4") and told == f"{first}\n" or first.startswith("error: the command line: ")):
            ended = first.partition(" line: ")[0]
        else:
            ended = f"status {status}"
            wrong.append(f"it ends with {status}: {said!r} {told!r}")
        if os.path.exists(f"{self.folder}/work"):
            ended += ", and the work folder stays"
            shutil.rmtree(f"{self.folder}/work")
        shutil.rmtree(f"{self.folder}/out", ignore_errors=True)
        status, said, told = self.ran(0)
        return True, ended, wrong + [f"then {it}" for it in self.wrong_output(status, said) + ([told] if told else [])]


def tried_all(one, name, step):
    counts, failed, number, told = collections.Counter(), 0, 1, time.monotonic()
    while True:
        met, ended, wrong = one.tried(number)
        for it in wrong:
            failed += 1
            print(f"WRONG {name}, request {number}: {it}", flush=True)
        if not met:
            break
        counts[ended] += 1
        if time.monotonic() - told > 30:
            told = time.monotonic()
            print(f"{name}: {number} requests", file=sys.stderr, flush=True)
        number += step
    print(f"{name}: {sum(counts.values())} requests: " + ", ".join(f"{ended} {count}" for ended, count in counts.most_common()), flush=True)
    return failed


def main(*words):
    step, (program, *wanted) = (int(words[1]), words[2:]) if words[0] == "--every" else (1, words)
    folder, failed = os.path.realpath(tempfile.mkdtemp(dir="/dev/shm" if os.path.isdir("/dev/shm") else None)), []
    try:
        refuser = f"{folder}/malloc.so"
        subprocess.run(["cc", "-shared", "-fPIC", "-O1", "-o", refuser, f"{HERE}/malloc.c"], check=True)
        for number, run in enumerate(RUNS):
            if not wanted or any(word in run[0] for word in wanted):
                failed.append(tried_all(Scene(f"{folder}/{number}", os.path.abspath(program), refuser, run), run[0], step))
        print(f"not as it has to be: {sum(failed)}")
        print(f"memory: {failed.count(0)} passed, {len(failed) - failed.count(0)} failed")
        return 1 if sum(failed) else 0
    finally:
        shutil.rmtree(folder, ignore_errors=True)


if __name__ == "__main__":
    sys.exit(main(*sys.argv[1:]) if len(sys.argv) > 1 else print(__doc__) or 2)
