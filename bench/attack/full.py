"""Runs on a disk that is full, and asks that each run says so and keeps what it has computed.

usage: full.py PROGRAM

A small file system in memory is mounted in a space of its own (unshare), where the machine allows that; else it says so and ends with status 0. Ten jobs make a file of
100 kB each. What is on the small disk, in turn:
- the output folder: the delivery fails as `fault: H9` after all ten jobs, the work folder stays with all ten results, and the words name the file, that there is no room,
  and where the results lie; copied to another folder by the user, they are the right ones;
- the output folder on a disk that is full to the last byte and folder before the run: `fault: H9` before the first job;
- the work folder: a job fails, or a call for one, and the run ends with its fault and not well; nothing is delivered;
- the record: a run whose rows can't be put ends well, with the right output;
- the archive: the same, and no row of its record says that it is archived without its files; one line says how many could not be kept.
The status is 1 where something is not so. Needs Linux, unshare and mount, sqlite3 and Python 3.8 or later.
"""

import hashlib
import json
import os
import re
import shutil
import sqlite3
import subprocess
import sys
import tempfile

SECONDS, JOBS, SIZE = 300, 10, 100_000
INSIDE = "IN_A_SPACE_OF_ITS_OWN"
TOOL = {
    "class": "CommandLineTool",
    "baseCommand": ["sh", "-c", f'echo "$0" >>../../../../started; head -c {SIZE} /dev/zero | tr "\\\\0" "$0" >big.$0'],
    "inputs": {"letter": {"type": "string", "inputBinding": {"position": 1}}},
    "outputs": {"o": {"type": "File", "outputBinding": {"glob": "big.*"}}},
}
DOCUMENT = {
    "cwlVersion": "v1.2",
    "class": "Workflow",
    "requirements": {"ScatterFeatureRequirement": {}},
    "inputs": {"letters": "string[]"},
    "outputs": {"all": {"type": "File[]", "outputSource": "make/o"}},
    "steps": {"make": {"run": TOOL, "scatter": "letter", "in": {"letter": "letters"}, "out": ["o"]}},
}
LETTERS = [chr(ord("a") + number) for number in range(JOBS)]


class Scene:
    """A folder with the workflow, and a small disk in it that is mounted anew for each run."""

    def __init__(self, folder, program):
        self.folder, self.program, self.disk = folder, program, f"{folder}/disk"
        os.makedirs(self.disk)
        for name, value in (("document", DOCUMENT), ("inputs", {"letters": LETTERS})):
            with open(f"{folder}/{name}", "w") as it:
                json.dump(value, it)

    def mount(self, kilobytes, entries):
        subprocess.run(["umount", self.disk], check=False, stderr=subprocess.DEVNULL)
        subprocess.run(["mount", "-t", "tmpfs", "-o", f"size={kilobytes}k,nr_inodes={entries}", "small", self.disk], check=True)
        for it in ("work", "out", "files"):
            shutil.rmtree(f"{self.folder}/{it}", ignore_errors=True)
        for it in ("jobs.db", "jobs.db-wal", "started"):
            if os.path.exists(f"{self.folder}/{it}"):
                os.remove(f"{self.folder}/{it}")
        os.makedirs(f"{self.folder}/run", exist_ok=True)

    def ran(self, work="run/work", out="out", record=None, archive=None, explain=("--explain",)):
        """Runs, and returns the status, what was printed, the lines of standard error, and how many jobs started."""
        shutil.rmtree(f"{self.folder}/run/work", ignore_errors=True)
        more = [*(["--record", record] if record else []), *(["--archive", archive] if archive else [])]
        words = [self.program, "run", *explain, "--work", work, "--outdir", out, *more, "document", "inputs"]
        ran = subprocess.run(words, cwd=self.folder, stdin=subprocess.DEVNULL, stdout=subprocess.PIPE, stderr=subprocess.PIPE, text=True, timeout=SECONDS, check=False)
        started = f"{self.folder}/started"
        # (how many jobs were loaded and computed is said of each success)
        told = [line for line in ran.stderr.splitlines() if not line.endswith(" delivered")]
        return ran.returncode, ran.stdout, told, len(open(started).readlines()) if os.path.exists(started) else 0

    def is_right(self, path, letter):
        with open(path, "rb") as it:
            return it.read() == letter.encode() * SIZE


def printed_wrong(said):
    """Returns what is wrong with the output object of a run that ended well."""
    files = json.loads(said or "{}").get("all", [])
    expected = [f"sha1${hashlib.sha1(letter.encode() * SIZE).hexdigest()}" for letter in LETTERS]
    return [] if [it.get("checksum") for it in files] == expected else [f"it printed {said[:200]}"]


def full_output(one):
    one.mount(450, 100)
    status, said, told, started = one.ran(out="disk/out")
    wrong = [] if (status, said, started) == (3, "", JOBS) and told[:1] == ["fault: H9"] else [f"it ends with {status}, {started} jobs started: {said!r} {told}"]
    missed = [it for it in told if re.fullmatch(r".*/disk/out/big\.[a-j] is not written: there is no room", it)]
    lies = [it for it in told if re.fullmatch(r"it lies at .*/run/work/j[0-9]+/out/big\.[a-j]", it)]
    stays = [it for it in told if it == f"the work folder {one.folder}/run/work stays"]
    if not (missed and lies and stays):
        wrong.append(f"it says {told}")
    kept = [f"{at}/{name}" for at, _, names in os.walk(f"{one.folder}/run/work") for name in names if name.startswith("big.")]
    if sorted(it[-1] for it in kept if one.is_right(it, it[-1])) != LETTERS:
        wrong.append(f"{len(kept)} results are left whole, of {JOBS}")
    return wrong


def no_output(one):
    one.mount(450, 100)
    os.makedirs(f"{one.disk}/out")
    for number in range(1_000):
        try:
            open(f"{one.disk}/out/{number}", "w").close()
        except OSError:
            break
    status, said, told, started = one.ran(out="disk/out")
    if (status, said, started) == (3, "", 0) and told[:1] == ["fault: H9"] and told[1].endswith("can't be used: there is no room"):
        return []
    return [f"it ends with {status}, {started} jobs started: {said!r} {told}"]


def full_work(one):
    one.mount(450, 1_000)
    status, said, told, started = one.ran(work="disk/work")
    wrong = [] if status in (1, 3) and not said else [f"it ends with {status}: {said!r} {told}"]
    if os.path.isdir(f"{one.folder}/out") and os.listdir(f"{one.folder}/out"):
        wrong.append("something was delivered")
    return wrong, f"{started} jobs started, {told[0] if told else ''}; {told[1] if told[1:] else ''}"


def full_record(one):
    """Tries disks on which the record can't be made, and those on which some of its rows can't be put."""
    wrong, more = [], []
    for kilobytes in (40, 200, 300, 600):
        one.mount(kilobytes, 100)
        status, said, told, started = one.ran(record="disk/jobs.db")
        if status == 3 and told[:1] == ["fault: R4"] and not started:
            more.append(f"{kilobytes} kB: fault: R4 before any job")
            continue
        wrong += ([f"{kilobytes} kB: it ends with {status}: {told}"] if status else []) + printed_wrong(said)
        rows = rows_of(f"{one.disk}/jobs.db")
        wrong += lines_wrong(told, JOBS - rows, "rows the record refused: R4")
        more.append(f"{kilobytes} kB: {rows} of {JOBS} rows")
    return wrong, "; ".join(more)


def rows_of(path):
    """Returns how many rows a record has, of a copy of it and its log that is read where there is room."""
    with tempfile.TemporaryDirectory() as room:
        for end in ("", "-wal"):
            if os.path.exists(path + end):
                shutil.copy(path + end, f"{room}/jobs.db{end}")
        store = sqlite3.connect(f"{room}/jobs.db")
        try:
            return store.execute("SELECT count(*) FROM job").fetchone()[0]
        finally:
            store.close()


def lines_wrong(told, count, what):
    """Returns what is wrong with the one line on so many jobs that were not kept."""
    if not count and not told:
        return []
    line = re.fullmatch(rf'not kept: "main/\S+"(?: and (\d+) more jobs?)?, whose {what}', "\n".join(told))
    return [] if line and 1 + int(line[1] or 0) == count else [f"{count} jobs are not kept, and the errors say {told}"]


def full_archive(one):
    one.mount(450, 100)
    status, said, told, _ = one.ran(record="jobs.db", archive="disk/files", explain=())
    wrong = ([f"it ends with {status}: {told}"] if status else []) + printed_wrong(said)
    store = sqlite3.connect(f"{one.folder}/jobs.db")
    found = store.execute("SELECT key, files, archived FROM job").fetchall()
    store.close()
    archived = 0
    for key, files, is_archived in found:
        archived += is_archived
        for name, is_dir, size, _ in json.loads(files) if is_archived else ():
            path = f"{one.disk}/files/{hashlib.sha1(key.encode()).hexdigest()}/{name}"
            if not is_dir and (not os.path.exists(path) or os.path.getsize(path) != size):
                wrong.append(f"a row says archived, and {name} is not whole")
    if len(found) != JOBS:
        wrong.append(f"{len(found)} rows")
    # it is said though no words were asked for
    wrong += lines_wrong(told, JOBS - archived, r"files could not be stored in \S+: there is no room")
    return wrong, f"{archived} of {len(found)} rows are archived"


def main(program):
    folder, failed = os.path.realpath(tempfile.mkdtemp()), 0
    try:
        one = Scene(folder, os.path.abspath(program))
        for words, trying in (
            ("the output folder is full after some results", full_output),
            ("the output folder takes nothing at all", no_output),
            ("the work folder is full", full_work),
            ("the record's disk is full", full_record),
            ("the archive's disk is full", full_archive),
        ):
            answer = trying(one)
            wrong, more = answer if isinstance(answer, tuple) else (answer, "")
            failed += bool(wrong)
            print(f"{'WRONG' if wrong else 'right'}  {words}{' (' + more + ')' if more else ''}{': ' if wrong else ''}{'; '.join(wrong)}", flush=True)
        print(f"not as it has to be: {failed}")
        return 1 if failed else 0
    finally:
        subprocess.run(["umount", f"{folder}/disk"], check=False, stderr=subprocess.DEVNULL)
        shutil.rmtree(folder, ignore_errors=True)


def in_a_space(program):
    """Calls this script where it may mount: in a space of its own, as that space's superuser."""
    room = {**os.environ, INSIDE: "1"}
    words = ["unshare", "--mount", *([] if os.geteuid() == 0 else ["--map-root-user"])]
    if subprocess.run([*words, "mount", "-t", "tmpfs", "small", "/mnt"], check=False, stderr=subprocess.DEVNULL).returncode:
        print("no small disk can be mounted here")
        return 0
    return subprocess.run([*words, sys.executable, os.path.abspath(__file__), program], env=room, check=False).returncode


if __name__ == "__main__":
    if len(sys.argv) != 2:
        sys.exit(print(__doc__) or 2)
    sys.exit(main(sys.argv[1]) if os.environ.get(INSIDE) else in_a_space(sys.argv[1]))
