"""Runs six workflows over one cache whose budget holds a third of their files, kills some of the runs, and asks what the cache holds.

usage: budget.py PROGRAM [RUNS [SEED]]        200 and 1 where they are not given

Each run is of one of six small workflows, by chance. Each makes files of sizes of its own and joins them: what has to come out is computed here, and not taken from a run. A run in
four is killed by `kill -9` after a random time, up to a tenth longer than the longest run takes. After each run
- sqlite3 says `ok` of a copy of the record and its log,
- the archives of the record have together no more bytes than the budget, each as many as the files of its row, and a row is archived where it has one,
- each row that is archived has its files whole in the archive.
After one that ended by itself, too
- the outputs are right, and nothing is said but of its jobs, and of what is near to those that are not recorded,
- no folder is in the archive that no archived row knows, but for those that killed runs left: what such a run had stored and did not put any more, or took out of
  the record and did not remove any more,
- those that lost their archive had been used before those that were left as they were,
- the numbers of uses have risen by one at least for each job that was loaded.
It prints how often each happened, and each thing that is not so, with the seed and the number of the run. Where no run loaded a job, none was killed, or no archive was lost,
nothing was tried, and that is wrong too. The status is 1 where anything is.
Needs Linux, sqlite3 and Python 3.8 or later.
"""

import collections
import json
import os
import random
import shutil
import sqlite3
import subprocess
import sys
import tempfile
import time

sys.dont_write_bytecode = True
sys.path.insert(0, os.path.dirname(os.path.realpath(__file__)))
import scene

# The sizes of the files that each workflow makes, which it then joins.
WORKFLOWS = ((1_000, 20_000), (30_000,), (5, 70_000, 40_000), (0, 90_000), (150_000,), (10_000, 11_000, 12_000, 13_000))
# A run in so many is killed.
KILLED = 4
# After so many runs it says how far it is.
TOLD = 20

MAKE = scene.tool(
    'sleep 0.03; head -c "$2" /dev/zero | tr "\\000" "$1" >made',
    {"letter": {"type": "string", "inputBinding": {"position": 1}}, "size": {"type": "int", "inputBinding": {"position": 2}}},
    scene.file_named("made"),
)


def letter_of(number):
    return "abcdef"[number]


def made_by(number):
    """Returns the content of each file that the workflow of this number makes, and of the one that has them all."""
    made = [letter_of(number).encode() * size for size in WORKFLOWS[number]]
    return made, b"".join(made)


def all_bytes():
    """Returns how many bytes all workflows make. Two jobs with equal inputs are one, and none here are."""
    return sum(2 * len(made_by(number)[1]) for number in range(len(WORKFLOWS)))


# How a line begins that says how a job differs from the nearest one of the record.
NEAR = "  input "


class Cache(scene.Place):
    """A folder with the workflows, and a cache with a budget for their runs."""

    def __init__(self, folder, program):
        super().__init__(folder, program, f"{folder}/cache")
        self.budget = all_bytes() // 3
        steps = {
            "make": {"run": MAKE, "in": {"letter": "letter", "size": "sizes"}, "out": ["o"], "scatter": "size"},
            "join": {"run": scene.JOIN, "in": {"f": "make/o"}, "out": ["o"]},
        }
        document = {"cwlVersion": "v1.2", "class": "Workflow", "requirements": {"ScatterFeatureRequirement": {}}, "steps": steps}
        document.update(inputs={"letter": "string", "sizes": "int[]"})
        document["outputs"] = {"made": {"type": "File[]", "outputSource": "make/o"}, "joined": {"type": "File", "outputSource": "join/o"}}
        self.write("document.json", document)
        for number, sizes in enumerate(WORKFLOWS):
            self.write(f"{number}.json", {"letter": letter_of(number), "sizes": list(sizes)})

    def ran(self, number, seconds):
        """Runs the workflow of this number, and kills the run after so many seconds, if any. Returns its status, what it printed, and its lines."""
        self.clear_run()
        places = ["--work", self.work, "--outdir", self.out, "--cache", f"{self.folder}/cache", "--budget", str(self.budget)]
        words = [self.program, "run", "--verbose", "--slots", "2", *places, "document.json", f"{number}.json"]
        pipes = {"stdin": subprocess.DEVNULL, "stdout": subprocess.PIPE, "stderr": subprocess.PIPE}
        child = subprocess.Popen(words, cwd=self.folder, text=True, **pipes)
        if seconds is not None:
            time.sleep(seconds)
            child.kill()
        said, told = child.communicate(timeout=scene.SECONDS)
        return child.returncode, said, told.splitlines()

    def wrong_outputs(self, number, said):
        """Returns what is wrong with what a run of this number printed and delivered, or nothing."""
        made, joined = made_by(number)
        printed = json.loads(said) if said else {}
        wrong = []
        for name, found, wanted in (("made", printed.get("made", []), made), ("joined", [printed.get("joined", {})], [joined])):
            contents = [scene.content_of(it["location"][len("file://") :]) for it in found if "location" in it]
            sums = [(it.get("size"), it.get("checksum")) for it in found]
            if contents != wanted or sums != [(len(it), f"sha1${scene.sum_of(it)}") for it in wanted]:
                wrong.append(f"{name} is wrong")
        return wrong

    def held(self):
        """Returns the rows of the record, its archives, and what sqlite3 says of its integrity."""
        (rows, archives), says = self.of_record(held_in, ({}, {}))
        return rows, archives, says

    def folders(self):
        return set(os.listdir(self.archive)) if os.path.isdir(self.archive) else set()


def held_in(file):
    """Returns the rows of a record (the files of each, and whether it is archived, by its key), and its archives (bytes and last use, by their key)."""
    store = sqlite3.connect(file)
    try:
        if store.execute("SELECT count(*) FROM sqlite_master WHERE name IN ('job', 'archive')").fetchone() != (2,):
            return {}, {}
        rows = {key: (json.loads(files), archived == 1) for key, files, archived in store.execute("SELECT key, files, archived FROM job")}
        return rows, {key: (size, used) for key, size, used in store.execute("SELECT key, bytes, used FROM archive")}
    finally:
        store.close()


class Soak:
    """What the runs have shown so far."""

    def __init__(self, cache, chance, longest):
        self.cache, self.chance, self.longest = cache, chance, longest
        self.counts, self.wrong, self.left, self.before = collections.Counter(), [], set(), {}

    def note(self, number, words):
        self.wrong.append(f"run {number}: {words}")
        print(self.wrong[-1], flush=True)

    def run(self, number):
        which = self.chance.randrange(len(WORKFLOWS))
        seconds = self.chance.uniform(0, self.longest) if self.chance.randrange(KILLED) == 0 else None
        status, said, lines = self.cache.ran(which, seconds)
        rows, archives, says = self.cache.held()
        self.judge_record(number, rows, archives, says)
        unknown = self.cache.folders() - {scene.sum_of(key.encode()) for key in archives}
        if status == -9:
            self.counts["killed"] += 1
            self.counts["folders that a killed run left"] += len(unknown - self.left)
            self.left = unknown
        else:
            self.counts["ended by itself"] += 1
            self.judge_end(number, which, status, said, lines)
            self.judge_uses(number, archives, lines)
            for folder in unknown - self.left:
                self.note(number, f"the archive has {folder}, and no archived row knows it")
            self.left &= unknown
        self.before = archives

    def judge_record(self, number, rows, archives, says):
        if says != "ok":
            self.note(number, f"sqlite3 says {says!r}")
        total = sum(size for size, _ in archives.values())
        if total > self.cache.budget:
            self.note(number, f"the archives have {total} bytes, and the budget is {self.cache.budget}")
        if {key for key, (_, is_archived) in rows.items() if is_archived} != set(archives):
            self.note(number, "the rows that are archived are not those with an archive")
        for key, (size, _) in archives.items():
            files = rows[key][0] if key in rows else []
            if size != sum(file[2] for file in files):
                self.note(number, f"an archive has {size} bytes, and its row others")
            if not self.cache.is_whole(key, files):
                self.note(number, "a row is archived, and its files are not whole")

    def judge_end(self, number, which, status, said, lines):
        others = [line for line in lines if not line.startswith((*scene.TOLD, NEAR))]
        if status != 0 or others:
            self.note(number, f"it ends with {status}: {others}")
            return
        for words in self.cache.wrong_outputs(which, said):
            self.note(number, words)
        self.counts["jobs started"] += sum(line.startswith("start ") for line in lines)

    def judge_uses(self, number, archives, lines):
        loads = sum(line.startswith("load ") for line in lines)
        lost = {used for key, (_, used) in self.before.items() if key not in archives}
        kept = {used for key, (_, used) in self.before.items() if archives.get(key, (0, 0))[1] == used}
        if lost and kept and max(lost) > min(kept):
            self.note(number, "an archive is lost, and one that was used before it is left")
        last, now = (max((used for _, used in it.values()), default=0) for it in (self.before, archives))
        if now < last + loads:
            self.note(number, f"{loads} jobs were loaded, and the last use went from {last} to {now}")
        self.counts["jobs loaded"] += loads
        self.counts["archives lost"] += len(lost)

    def judge_all(self):
        """Asks that there was something to judge."""
        for what in ("killed", "jobs loaded", "archives lost"):
            if not self.counts[what]:
                self.wrong.append(f"{what}: none, so nothing was tried")
                print(self.wrong[-1])


def longest_of(cache):
    """Returns the seconds that the longest run takes from nothing."""
    times = []
    for number in range(len(WORKFLOWS)):
        begun = time.monotonic()
        status, said, lines = cache.ran(number, None)
        times.append(time.monotonic() - begun)
        if status or cache.wrong_outputs(number, said):
            sys.exit(f"a run that isn't killed ends with {status}: {lines} {cache.wrong_outputs(number, said)}")
    shutil.rmtree(f"{cache.folder}/cache")
    return max(times)


def main():
    program, runs, seed = os.path.abspath(sys.argv[1]), int((sys.argv[2:3] or [200])[0]), int((sys.argv[3:4] or [1])[0])
    folder = tempfile.mkdtemp()
    try:
        cache = Cache(f"{folder}/soak", program)
        longest = longest_of(cache)
        print(f"seed {seed}; {len(WORKFLOWS)} workflows with {all_bytes()} bytes, a budget of {cache.budget}; {longest * 1000:.0f} ms at most", flush=True)
        soak = Soak(cache, random.Random(seed), longest * 1.1)
        for number in range(runs):
            soak.run(number)
            if (number + 1) % TOLD == 0:
                print(f"run {number + 1}, not as it has to be: {len(soak.wrong)}", file=sys.stderr, flush=True)
        soak.judge_all()
        for what, count in soak.counts.items():
            print(f"{what}: {count}")
        print(f"not as it has to be: {len(soak.wrong)}")
        return 1 if soak.wrong else 0
    finally:
        subprocess.run(["rm", "-rf", folder], check=False)


if __name__ == "__main__":
    sys.exit(main())
