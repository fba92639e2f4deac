"""Stops runs by `kill -9` at random moments, and asks what is left, and whether the same run then ends well.

usage: stops.py PROGRAM [STOPS [SEED]]        200 and 1 where they are not given

scene.py has the workflow. A run with a record and an archive is stopped after a random time, up to a tenth longer than it takes; and where strace is there, another
one at a random call that changes files: as many of each as STOPS says. A third of the runs begin with what a run that was stopped before has left. After each stop
- sqlite3 says `ok` of a copy of the record and its log,
- each row that is archived has its files whole in the archive,
- the work folder is in the way of a run (which is asked after one stop of ten), and once it is removed the same run ends with the right outputs, with no word but
  its jobs', having started no job that was archived,
- the record then has a row for each job, each archived and whole.
It prints how many stops came at which point of a run, and each thing that is not so, with the seed and the number of the stop. The status is 1 where there is one.
Needs Linux, sqlite3 and Python 3.8 or later.
"""

import collections
import os
import random
import re
import shutil
import statistics
import subprocess
import sys
import tempfile
import time

sys.dont_write_bytecode = True
sys.path.insert(0, os.path.dirname(os.path.realpath(__file__)))
import scene

# The calls that change files, or bring what was written to the disk.
CALLS = "write,pwrite64,fsync,fdatasync,ftruncate,rename,renameat,renameat2,mkdir,mkdirat,rmdir,unlink,unlinkat,openat,fchmod,chmod,fchmodat"

# Of so many stops one is followed by a run over the work folder that it left.
EACH = 10
# After so many stops it says how far it is.
TOLD = 20


class Stops:
    """What the stops have shown so far."""

    def __init__(self, one, chance):
        self.scene, self.chance = one, chance
        self.counts, self.wrong = collections.Counter(), []

    def note(self, number, words):
        self.wrong.append(f"stop {number}: {words}")
        print(self.wrong[-1], flush=True)

    def begin(self):
        """Makes place for a run: two thirds begin anew."""
        if self.chance.random() < 2 / 3:
            self.scene.clear()
            self.counts["began anew"] += 1
        self.scene.clear_run()

    def stop_by_clock(self, longest):
        """Kills a run after a random time. Returns what it said."""
        self.begin()
        child = self.scene.started()
        time.sleep(self.chance.uniform(0, longest))
        child.kill()
        _, told = child.communicate()
        self.counts["stopped by the clock" if child.returncode == -9 else "ended before"] += 1
        return told

    def stop_by_call(self, calls):
        """Kills a run at one of the calls that were seen of another run. Returns what it said."""
        self.begin()
        name, count = self.chance.choice(calls)
        words = ["strace", "-qq", "-o", "/dev/null", "-e", f"trace={name}", "-e", f"inject={name}:signal=SIGKILL:when={count}"]
        child = self.scene.started(before=words)
        _, told = child.communicate(timeout=scene.SECONDS)
        self.counts[f"stopped at {name}" if child.returncode == -9 else "ended before"] += 1
        return told

    def judge(self, number, told):
        """Looks at what the stop left, and runs again."""
        rows, says = self.scene.rows()
        if says != "ok":
            self.note(number, f"sqlite3 says {says!r}")
        archived = {key for key, _, is_archived in rows if is_archived}
        whole = {key for key, files, is_archived in rows if is_archived and self.scene.is_whole(key, files)}
        for _ in archived - whole:
            self.note(number, "a row is archived, and its files are not whole")
        self.counts["rows left"] += len(rows)
        self.counts["jobs that had started"] += sum(line.startswith("start ") for line in told.splitlines())
        self.counts["without a row" if not rows else "with every row" if len(rows) == scene.JOBS else "with some rows"] += 1
        self.run_again(number, whole)
        if (number + 1) % TOLD == 0:
            print(f"stop {number + 1}, not as it has to be: {len(self.wrong)}", file=sys.stderr, flush=True)

    def refused_first(self, number):
        """Asks that the work folder, where the stop left one, is in the way of a run."""
        if os.path.exists(self.scene.work):
            child = self.scene.started()
            _, told = child.communicate(timeout=scene.SECONDS)
            self.counts["runs refused by the work folder that was left"] += 1
            if (child.returncode, told.strip()) != (3, "fault: work"):
                self.note(number, f"over the work folder that was left a run ends with {child.returncode}: {told!r}")

    def run_again(self, number, whole):
        if number % EACH == 0:
            self.refused_first(number)
        status, said, starts, others = self.scene.ran()
        if status != 0 or others:
            self.note(number, f"the run after it ends with {status}: {others}")
            return
        for words in self.scene.wrong_outputs(said):
            self.note(number, f"after it, {words}")
        self.counts["jobs started again"] += len(starts)
        if len(starts) > scene.JOBS - len(whole):
            self.note(number, f"{len(starts)} jobs start after it, where {len(whole)} of {scene.JOBS} were archived")
        rows, says = self.scene.rows()
        kept = [key for key, files, is_archived in rows if is_archived and self.scene.is_whole(key, files)]
        if says != "ok" or len(kept) != scene.JOBS:
            self.note(number, f"after the run after it {len(kept)} rows are archived and whole, and sqlite3 says {says!r}")


def length_of(one):
    """Returns the seconds that a run takes from nothing: the median of three."""
    times = []
    for _ in range(3):
        one.clear()
        begun = time.monotonic()
        status, said, _, others = one.ran()
        times.append(time.monotonic() - begun)
        wrong = one.wrong_outputs(said)
        if status or wrong:
            sys.exit(f"a run that isn't stopped ends with {status}: {others} {wrong}")
    return statistics.median(times)


def calls_of(one):
    """Returns each call of a run that changes files: its name, and the how manieth of that name it is."""
    one.clear()
    log = f"{one.folder}/calls"
    child = one.started(before=["strace", "-qq", "-s", "0", "-o", log, "-e", f"trace={CALLS}"])
    child.communicate(timeout=scene.SECONDS)
    names, found = collections.Counter(), []
    with open(log) as lines:
        for line in lines:
            name = re.match(r"(\w+)\(", line)
            if name:
                names[name[1]] += 1
                # (a file that is only opened to be read changes nothing)
                if name[1] != "openat" or "O_CREAT" in line:
                    found.append((name[1], names[name[1]]))
    os.remove(log)
    if child.returncode or not found:
        sys.exit(f"a run under strace ends with {child.returncode}")
    return found


def main():
    program, stops, seed = os.path.abspath(sys.argv[1]), int((sys.argv[2:3] or [200])[0]), int((sys.argv[3:4] or [1])[0])
    folder = tempfile.mkdtemp()
    try:
        one = scene.Scene(f"{folder}/scene", program, seed)
        made = Stops(one, random.Random(seed))
        length = length_of(one)
        print(f"seed {seed}; {scene.JOBS} jobs, {length * 1000:.0f} ms from nothing", flush=True)
        for number in range(stops):
            made.judge(number, made.stop_by_clock(length * 1.1))
        if shutil.which("strace"):
            calls = calls_of(one)
            print(f"{len(calls)} calls of a run change files", flush=True)
            for number in range(stops, 2 * stops):
                made.judge(number, made.stop_by_call(calls))
        for what, count in made.counts.items():
            print(f"{what}: {count}")
        print(f"not as it has to be: {len(made.wrong)}")
        return 1 if made.wrong else 0
    finally:
        subprocess.run(["rm", "-rf", folder], check=False)


if __name__ == "__main__":
    sys.exit(main())
