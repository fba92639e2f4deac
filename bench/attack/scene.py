"""A workflow on real files, what it has to give, and what its record and its archive hold: for the scripts beside this one.

Eighteen jobs: eight copy a file in upper case, eight make a folder of such a copy, with a file in a folder and one that may be run, one joins the copies,
and one counts its bytes. All that they make is a result, so a run needs each of them. The files have from no byte to some hundred thousand. Each job sleeps
for 20 ms or more, so that to fetch what it made, which costs 10 at most, is always cheaper than to compute it. What has to come out is computed here, and
not taken from a run.
"""

import hashlib
import json
import os
import random
import shutil
import sqlite3
import stat
import subprocess
import time

SIZES = (0, 1, 1_000, 65_536, 65_537, 200_000, 3, 400_000)
JOBS = 2 * len(SIZES) + 2
SECONDS = int(os.environ.get("SECONDS_EACH", 120))
# The lines in which a run tells of its jobs.
TOLD = ("start ", "end ", "compute ", "load ", "omit ")


def sum_of(content):
    return hashlib.sha1(content).hexdigest()


def content_of(path):
    with open(path, "rb") as it:
        return it.read()


def tool(script, inputs, outputs, **more):
    """Returns a tool whose command is a line for the shell."""
    return {"class": "CommandLineTool", "baseCommand": ["sh", "-c", script, "sh"], "inputs": inputs, "outputs": outputs, **more}


def file_named(name):
    return {"o": {"type": "File", "outputBinding": {"glob": name}}}


ONE, MANY = ({"f": {"type": kind, "inputBinding": {"position": 1}}} for kind in ("File", "File[]"))
UPPER = tool('sleep 0.0$((2 + $$ % 5)); tr a-z A-Z <"$1"', ONE, {"o": "stdout"}, stdout="upper")
FOLDER = tool(
    'sleep 0.02; mkdir -p d/below; cp "$1" d/copy; cp "$1" d/below/run; chmod 755 d/below/run; echo "$1" | wc -l >d/below/lines',
    ONE,
    {"o": {"type": "Directory", "outputBinding": {"glob": "d"}}},
)
JOIN = tool('sleep 0.02; cat "$@" >joined', MANY, file_named("joined"))
COUNT = tool('sleep 0.02; wc -c <"$1" | tr -d " " >count', ONE, file_named("count"))


class Place:
    """A folder with what a run is given, and what its record and its archive hold."""

    def __init__(self, folder, program, kept):
        self.folder, self.program = folder, program
        self.record, self.archive = f"{kept}/jobs.db", f"{kept}/files"
        self.work, self.out = f"{folder}/work", f"{folder}/out"
        os.makedirs(folder)

    def write(self, name, value):
        with open(f"{self.folder}/{name}", "w") as it:
            json.dump(value, it)

    def clear_run(self):
        """Leaves nothing of a run but its record and its archive. Children of a run that was stopped may still write below its work folder."""
        for folder in (self.work, self.out):
            for _ in range(1_000):
                shutil.rmtree(folder, ignore_errors=True)
                if not os.path.lexists(folder):
                    break
                time.sleep(0.01)

    def of_record(self, read, nothing):
        """Returns what this reads in a copy of the record, and what sqlite3 says of its integrity: nothing of a file that isn't there, or one
        whose making was cut off: its first byte is written last, and the next run makes it anew."""
        if not os.path.exists(self.record) or content_of(self.record)[:1] == b"\0":
            return nothing, "ok"
        copy = f"{self.folder}/copy"
        os.makedirs(copy)
        try:
            for end in ("", "-wal", "-journal"):
                if os.path.exists(self.record + end):
                    shutil.copy(self.record + end, f"{copy}/jobs.db{end}")
            check = ["sqlite3", f"{copy}/jobs.db", "PRAGMA integrity_check"]
            says = subprocess.run(check, stdout=subprocess.PIPE, stderr=subprocess.STDOUT, text=True, check=False).stdout.strip()
            return read(f"{copy}/jobs.db"), says
        finally:
            shutil.rmtree(copy)

    def is_whole(self, key, files):
        """Returns whether the archive has these files of a key."""
        return all(self.has(key, file) for file in files)

    def has(self, key, file):
        name, is_dir, size, checksum = file
        path = f"{self.archive}/{sum_of(key.encode())}/{name}"
        try:
            mode = os.lstat(path).st_mode
        except OSError:
            return False
        if is_dir:
            return stat.S_ISDIR(mode)
        return stat.S_ISREG(mode) and os.path.getsize(path) == size and sum_of(content_of(path)) == checksum


class Scene(Place):
    """A folder with the workflow, its inputs, and the places that a run is given."""

    def __init__(self, folder, program, seed, slots=4):
        super().__init__(folder, program, folder)
        self.slots = slots
        os.makedirs(f"{folder}/given")
        chance = random.Random(seed)
        self.contents = [bytes(chance.choice(b"abcdefgh \n") for _ in range(size)) for size in SIZES]
        for number, content in enumerate(self.contents):
            with open(f"{folder}/given/{number}", "wb") as it:
                it.write(content)
        self.write_documents()

    def write_documents(self):
        steps = {
            "upper": {"run": UPPER, "in": {"f": "files"}, "out": ["o"], "scatter": "f"},
            "folder": {"run": FOLDER, "in": {"f": "upper/o"}, "out": ["o"], "scatter": "f"},
            "join": {"run": JOIN, "in": {"f": "upper/o"}, "out": ["o"]},
            "count": {"run": COUNT, "in": {"f": "join/o"}, "out": ["o"]},
        }
        document = {"cwlVersion": "v1.2", "class": "Workflow", "requirements": {"ScatterFeatureRequirement": {}}}
        document.update(inputs={"files": "File[]"}, steps=steps)
        document["outputs"] = {
            "folders": {"type": "Directory[]", "outputSource": "folder/o"},
            "joined": {"type": "File", "outputSource": "join/o"},
            "count": {"type": "File", "outputSource": "count/o"},
            "uppers": {"type": "File[]", "outputSource": "upper/o"},
        }
        inputs = {"files": [{"class": "File", "location": f"given/{number}"} for number in range(len(SIZES))]}
        self.write("scene.json", document)
        self.write("inputs.json", inputs)

    def words(self):
        places = ["--work", self.work, "--outdir", self.out, "--record", self.record, "--archive", self.archive]
        return [self.program, "run", "--verbose", "--slots", str(self.slots), *places, "scene.json", "inputs.json"]

    def started(self, before=(), **more):
        """Returns the child of a run: the words of another program may stand before its own."""
        return subprocess.Popen(
            [*before, *self.words()], cwd=self.folder, stdin=subprocess.DEVNULL, stdout=subprocess.PIPE, stderr=subprocess.PIPE, text=True, **more
        )

    def ran(self, **more):
        """Runs to the end. Returns the status, what was printed, the places that started, and the other lines of standard error."""
        self.clear_run()
        child = self.started(**more)
        said, told = child.communicate(timeout=SECONDS)
        lines = told.splitlines()
        starts = [line.split()[1] for line in lines if line.startswith("start ")]
        others = [line for line in lines if not line.startswith(TOLD)]
        return child.returncode, said, starts, others

    def clear(self):
        """Leaves no record, no archive, and nothing of a run."""
        self.clear_run()
        for path in (self.archive, *(self.record + end for end in ("", "-wal", "-shm", "-journal"))):
            if os.path.isdir(path) and not os.path.islink(path):
                shutil.rmtree(path)
            elif os.path.lexists(path):
                os.remove(path)

    def expected(self):
        """Returns the content of each file that has to be delivered, by its path below the output folder; a file that may be run has a '*'."""
        uppers = [content.upper() for content in self.contents]
        files = {"joined": b"".join(uppers), "count": b"%d\n" % sum(map(len, uppers))}
        for number, content in enumerate(uppers):
            at = "" if number == 0 else f"_{number}/"
            files.update({f"{at}d/copy": content, f"{at}d/below/run*": content, f"{at}d/below/lines": b"1\n", f"{at}upper": content})
        return files

    def wrong_outputs(self, said, with_modes=True):
        """Returns what is wrong with the outputs of a run that printed this, or nothing."""
        found, expected = {}, self.expected()
        for at, _, names in os.walk(self.out):
            for name in names:
                path = f"{at}/{name}"
                may_run = "*" if os.stat(path).st_mode & 0o100 else ""
                found[os.path.relpath(path, self.out) + may_run] = content_of(path)
        if not with_modes:
            found, expected = ({path.rstrip("*"): content for path, content in it.items()} for it in (found, expected))
        wrong = [f"{path} differs" for path in sorted({*found, *expected}) if found.get(path) != expected.get(path)]
        printed = json.loads(said) if said else {}
        for name in ("joined", "count"):
            content = expected[name]
            one = printed.get(name, {})
            if (one.get("checksum"), one.get("size")) != (f"sha1${sum_of(content)}", len(content)):
                wrong.append(f"what is printed of {name} is wrong")
        for name in ("folders", "uppers"):
            if len(printed.get(name, ())) != len(SIZES):
                wrong.append(f"what is printed of the {name} is wrong")
        return wrong

    def rows(self):
        """Returns the rows of the record, and what sqlite3 says of its integrity."""
        return self.of_record(rows_in, [])


def rows_in(file):
    """Returns key, files and whether they are archived of each row of a record, none where it has no table yet."""
    store = sqlite3.connect(file)
    try:
        if not store.execute("SELECT 1 FROM sqlite_master WHERE name = 'job'").fetchall():
            return []
        return [(key, json.loads(files), archived == 1) for key, files, archived in store.execute("SELECT key, files, archived FROM job")]
    finally:
        store.close()
