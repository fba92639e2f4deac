"""Has others at the files of a run, and asks that it tells no other bytes than it delivers, gives nobody rights, and leaves no halves.

usage: others.py PROGRAM

Each attack is a run in a folder of its own, of a small workflow whose commands do the harm themselves, so nothing rests on a moment:
- a command edits an input of the user's that a later job reads: `fault: H2`, and the words name the file. The same run with the input put back ends well, with the
  right output, though it had a cache;
- a command leaves a process that writes to an output of its own once that was listed: `fault: H9` where it is delivered, `fault: H2` where it is read, and the words
  name it. Nothing of it is delivered, and what was at its target stays;
- an input and an output may be run with their owner's rights (mode 4755): no copy may. Only the owner enters the work folder and the folders of jobs;
- an input and an output are private (mode 0600): no copy of them is ever less so. OUTDIR and the work folder are looked at all the while;
- an output has the name of the document, of a step's, of the inputs, of the record, or of what SQLite puts beside that, and OUTDIR is their folder: `fault: H9`, the words
  name the file, all of them stay as they were, and the record has its row;
- the run is killed while it delivers: what is at each target is whole, as it was before or as it is to be, a file and a folder;
- a command leaves 30,000 folders in one another: the run ends within a minute;
- a word of a command is longer than the system takes: `fault: H3`, and the words say so;
- the run may have few files open at once, from four on: it ends well or as a fault, or its job fails for want of them, and it leaves no work folder, or says that it can't be removed;
- a command takes the rights of the folder round the work folder from its owner: the run ends well, and says that the work folder can't be removed, and why.
The status is 1 where something is not so. Needs Linux, a shell and Python 3.8 or later.
"""

import hashlib
import json
import os
import resource
import shutil
import signal
import stat
import subprocess
import sys
import tempfile
import threading
import time

SECONDS, SIZE = int(os.environ.get("SECONDS_EACH", 60)), int(os.environ.get("SIZE", 20_000_000))


def tool(script, outputs, *names, **more):
    """Returns a tool whose command is a line for the shell, with these inputs as its words: a File each, but for `t`, a text."""
    inputs = {name: {"type": "string" if name == "t" else "File", "inputBinding": {"position": at}} for at, name in enumerate(names)}
    found = {name: {"type": "Directory" if name == "d" else "File", "outputBinding": {"glob": name}} for name in outputs}
    return {"class": "CommandLineTool", "baseCommand": ["sh", "-c", script, "sh"], "inputs": inputs, "outputs": found, **more}


def workflow(inputs, outputs, **steps):
    types = {"t": "string", "d": "Directory"}
    return {
        "cwlVersion": "v1.2",
        "class": "Workflow",
        "inputs": {name: types.get(name, "File") for name in inputs},
        "outputs": {name: {"type": types.get(name, "File"), "outputSource": source} for name, source in outputs.items()},
        "steps": {name: {"run": run, "in": taken, "out": list(run["outputs"])} for name, (run, taken) in steps.items()},
    }


class Scene:
    """A folder in which one document is run."""

    def __init__(self, folder, program):
        self.folder, self.program = folder, program
        self.work, self.out = f"{folder}/run/work", f"{folder}/out"
        os.makedirs(f"{folder}/run")
        os.makedirs(self.out)

    def put(self, name, content, mode=0o644):
        path = f"{self.folder}/{name}"
        with open(path, "wb") as it:
            it.write(content)
        os.chmod(path, mode)
        return path

    def started(self, document, inputs, *more, before=None):
        for name, value in (("document", document), ("inputs", inputs)):
            self.put(name, json.dumps(value).encode())
        words = [self.program, "run", "--explain", "--work", self.work, "--outdir", self.out, *more, "document", "inputs"]
        return subprocess.Popen(words, cwd=self.folder, stdin=subprocess.DEVNULL, stdout=subprocess.PIPE, stderr=subprocess.PIPE, text=True, preexec_fn=before)

    def ran(self, document, inputs, *more, before=None):
        """Runs, and returns the status, what was printed, and the lines of standard error."""
        shutil.rmtree(self.work, ignore_errors=True)
        child = self.started(document, inputs, *more, before=before)
        try:
            said, told = child.communicate(timeout=SECONDS)
        except subprocess.TimeoutExpired:
            child.kill()
            child.communicate()
            return None, "", [f"no end within {SECONDS} seconds"]
        return child.returncode, said, told.splitlines()

    def content(self, name):
        with open(f"{self.folder}/{name}", "rb") as it:
            return it.read()


def given(path):
    return {"class": "File", "location": path}


def wrong_end(ended, status, words):
    """Returns what is wrong with the end of a run that has this status, and lines on its errors with these words."""
    told = "\n".join(ended[2])
    missed = [it for it in words if it not in told]
    return [f"it ends with {ended[0]}, without {missed}: {ended[2]}"] if ended[0] != status or missed else []


def printed_wrong(one, said):
    """Returns the outputs that are not in OUTDIR as they were printed."""
    wrong = []
    for name, it in json.loads(said or "{}").items():
        found = one.content(f"out/{it['basename']}")
        if it["checksum"] != f"sha1${hashlib.sha1(found).hexdigest()}":
            wrong.append(f"{name} was printed with another sum than it was delivered with")
    return wrong


EDIT = tool('sleep 0.1; printf EDITED >"$1"; echo ok >e', ["e"], "t")
READ = tool('cat "$1" >o', ["o"], "f", "after")


def edited_input(one):
    path = one.put("mine", b"as it was")
    steps = {"edit": (EDIT, {"t": "t"}), "read": (READ, {"f": "f", "after": "edit/e"})}
    document = workflow(["t", "f"], {"o": "read/o"}, **steps)
    inputs = {"t": path, "f": given("mine")}
    # (loading has to be cheaper than the command, which would edit the input once more)
    cache = ["--record", "jobs.db", "--archive", "files", "--base", "0"]
    wrong = wrong_end(one.ran(document, inputs, *cache), 3, ["fault: H2", path])
    if os.listdir(one.out):
        wrong.append("something was delivered")
    one.put("mine", b"as it was")
    ended = one.ran(document, inputs, *cache)
    wrong += wrong_end(ended, 0, [])
    if not wrong and one.content("out/o") != b"as it was":
        wrong.append(f"what was delivered is {one.content('out/o')!r}")
    return wrong + printed_wrong(one, ended[1])


# The process waits for a file beside the document, and tells in another one that it has written.
LEAVE = tool('printf right >o; here=$PWD; (cd /; while [ ! -e "$1/go" ]; do sleep 0.01; done; printf wrong >"$here/o"; touch "$1/gone") >/dev/null 2>&1 &', ["o"], "t")
WAIT = tool('touch "$1/go"; while [ ! -e "$1/gone" ]; do sleep 0.01; done; echo ok >w', ["w"], "t", "after")


def left_process(one, fault, outputs, **more):
    steps = {"leave": (LEAVE, {"t": "t"}), "wait": (WAIT, {"t": "t", "after": "leave/o"}), **more}
    one.put("out/o", b"older")
    ended = one.ran(workflow(["t"], outputs, **steps), {"t": one.folder})
    wrong = wrong_end(ended, 3, [fault, f"{one.work}/j1/out/o"])
    if one.content("out/o") != b"older":
        wrong.append(f"what was delivered is {one.content('out/o')!r}")
    return wrong


def left_and_delivered(one):
    return left_process(one, "fault: H9", {"o": "leave/o", "w": "wait/w"})


def left_and_read(one):
    return left_process(one, "fault: H2", {"o": "read/o"}, read=(READ, {"f": "leave/o", "after": "wait/w"}))


RIGHTS = tool('stat -L -c %a "$1" . .. ../.. >o; mkdir d; echo x >d/f; chmod 6755 d/f; chmod 3777 d', ["o", "d"], "f")


def rights(one):
    one.put("mine", b"#!/bin/sh\n", 0o4755)
    ended = one.ran(workflow(["f"], {"o": "r/o", "d": "r/d", "f": "f"}, r=(RIGHTS, {"f": "f"})), {"f": given("mine")}, "--record", "jobs.db", "--archive", "files")
    wrong = wrong_end(ended, 0, [])
    if wrong:
        return wrong
    modes = one.content("out/o").decode().split()
    if modes[0] != "755" or modes[2:] != ["700", "700"]:
        wrong.append(f"the input, the folder of outputs, the job's and the work folder have the modes {modes}")
    for top in ("out", "files"):
        for at, folders, names in os.walk(f"{one.folder}/{top}"):
            odd = [it for it in [*folders, *names] if os.stat(f"{at}/{it}").st_mode & 0o7000]
            wrong += [f"{at}/{it} has the mode {os.stat(f'{at}/{it}').st_mode & 0o7777:o}" for it in odd]
    return wrong


KEEP = tool('cp "$1" o; chmod 600 o', ["o"], "f")


def private(one):
    path = one.put("mine", os.urandom(SIZE), 0o600)
    os.chmod(one.folder, 0o755)
    seen, over = set(), threading.Event()

    def look():
        while not over.is_set():
            for top in (f"{one.work}/j1/in", one.out):
                for at, _, names in os.walk(top):
                    seen.update(mode for it in names for mode in mode_of(f"{at}/{it}") if mode & 0o077)

    looking = threading.Thread(target=look)
    looking.start()
    ended = one.ran(workflow(["f"], {"o": "k/o"}, k=(KEEP, {"f": "f"})), {"f": given(path)})
    over.set()
    looking.join()
    return wrong_end(ended, 0, []) + [f"a copy had the mode {mode:o}" for mode in sorted(seen)]


def mode_of(path):
    try:
        return [stat.S_IMODE(os.lstat(path).st_mode)]
    except OSError:
        return []


OWN = ("document", "inputs", "step.json", "jobs.db", "jobs.db-wal", "jobs.db-journal", "jobs.db-shm")


def own_files(one):
    wrong = []
    for name in OWN:
        shutil.rmtree(one.out)
        os.makedirs(one.out)
        one.put("out/step.json", json.dumps({"cwlVersion": "v1.2", **tool(f'printf new >"{name}"', [name])}).encode())
        document = workflow([], {"o": f"s/{name}"}, s=({"outputs": [name]}, {}))
        document["steps"]["s"]["run"] = "step.json"
        for given, value in (("document", document), ("inputs", {})):
            one.put(f"out/{given}", json.dumps(value).encode())
        before = {it: one.content(f"out/{it}") for it in ("document", "inputs", "step.json")}
        shutil.rmtree(one.work, ignore_errors=True)
        words = [one.program, "run", "--explain", "--work", one.work, "--outdir", ".", "--record", "jobs.db", "document", "inputs"]
        ran = subprocess.run(words, cwd=one.out, stdin=subprocess.DEVNULL, capture_output=True, text=True, timeout=SECONDS)
        wrong += [f"{name}: {it}" for it in wrong_end((ran.returncode, ran.stdout, ran.stderr.splitlines()), 3, ["fault: H9", f"{one.out}/{name} is not written"])]
        wrong += [f"{name}: {it} is not as it was" for it, was in before.items() if one.content(f"out/{it}") != was]
        # a record's log may stay beside it
        if {*os.listdir(one.out)} - {"jobs.db-wal"} != {"document", "inputs", "jobs.db", "step.json"}:
            wrong.append(f"{name}: there are {sorted(os.listdir(one.out))}")
        shown = subprocess.run([one.program, "record", f"{one.out}/jobs.db"], capture_output=True, text=True)
        if shown.returncode != 0 or len(shown.stdout.splitlines()) != 1:
            wrong.append(f"{name}: the record shows {shown.stdout!r}{shown.stderr!r}")
    return wrong


MAKE = tool(f'mkdir d; head -c {SIZE} /dev/zero >d/f; head -c {SIZE} /dev/zero >o; sleep 0.2', ["o", "d"])


def killed(one):
    """Kills the run as soon as OUTDIR changes, and again a little later each time."""
    wrong, new = [], hashlib.sha1(bytes(SIZE)).hexdigest()
    document = workflow([], {"o": "m/o", "d": "m/d"}, m=(MAKE, {}))
    for late in (0, 0.02, 0.05, 0.1, 0.2, 0.4):
        shutil.rmtree(one.out)
        os.makedirs(one.out)
        one.put("out/o", b"older")
        shutil.rmtree(one.work, ignore_errors=True)
        before, child = looked(one), one.started(document, {})
        while child.poll() is None and looked(one) == before:
            time.sleep(0.001)
        time.sleep(late)
        child.send_signal(signal.SIGKILL)
        child.communicate()
        for name in ("o", "d/f"):
            if os.path.lexists(f"{one.out}/{name.split('/')[0]}") or name == "o":
                try:
                    found = one.content(f"out/{name}")
                except OSError:
                    found = None
                if found is None or found != b"older" and hashlib.sha1(found).hexdigest() != new:
                    wrong.append(f"{late} s after the first change {name} is {'gone' if found is None else 'a half'}")
    return wrong


def looked(one):
    return sorted((it.name, it.stat().st_size, it.stat().st_mtime_ns) for it in os.scandir(one.out) if it.name != ".deparohi")


DEEP = tool('cd ../tmp; python3 -c \'import os\nfor _ in range(30000):\n    os.mkdir("d"); os.chdir("d")\'; cd ../out; echo ok >o', ["o"])


def deep(one):
    begun = time.monotonic()
    wrong = wrong_end(one.ran(workflow([], {"o": "m/o"}, m=(DEEP, {})), {}), 0, [])
    if wrong:
        subprocess.run(["rm", "-rf", one.work], check=False)
    return wrong, f"{time.monotonic() - begun:.1f} s"


def too_long(one):
    document = workflow(["t"], {}, m=({**tool("true", [], "t"), "baseCommand": ["echo"]}, {"t": "t"}))
    ended = one.ran(document, {"t": "x" * 200_000})
    wrong = wrong_end(ended, 3, ["fault: H3", "longer than the system takes"])
    return wrong + ["it says where it was looked for" for it in ended[2] if "looked for" in it]


def few_files(one):
    """Runs with each limit of open files, with and without a cache."""
    wrong, ends = [], set()
    document = workflow(["f"], {"o": "a/o", "d": "b/d"}, a=(READ_ONE, {"f": "f"}), b=(FOLDERS, {"f": "a/o"}))
    one.put("mine", b"text")
    for more in ([], ["--cache", "cache"]):
        for limit in range(4, 44):
            for name in ("cache", "out"):
                shutil.rmtree(f"{one.folder}/{name}", ignore_errors=True)
            status, _, told = one.ran(document, {"f": given("mine")}, *more, before=lambda: resource.setrlimit(resource.RLIMIT_NOFILE, (limit, limit)))
            ends.add(status)
            left = os.path.lexists(one.work)
            said = any("can't be removed" in it for it in told) or f"the work folder {one.work} stays" in told
            # a shell with so few files fails by itself, and so its job does
            if status not in (0, 1, 3) or left != said:
                wrong.append(f"with {limit} files{' and a cache' if more else ''} it ends with {status}, {'leaves' if left else 'removes'} the work folder, and says {told}")
    return wrong + ([] if {0, 3} <= ends else [f"it ends with {ends} alone"])


READ_ONE = tool('cat "$1" >o', ["o"], "f")
FOLDERS = tool("mkdir -p d/a/b/c/d/e/f; echo x >d/a/b/c/d/e/f/g", ["d"], "f")
SHUT = tool("chmod 555 ../../..; echo ok >o", ["o"])


def shut(one):
    """Runs as nobody where this is the system's superuser, who needs no rights."""
    os.chmod(one.folder, 0o777)
    for name in ("run", "out"):
        os.chmod(f"{one.folder}/{name}", 0o777)
    if os.getuid() == 0:
        os.chown(f"{one.folder}/run", 65534, 65534)
    ended = one.ran(workflow([], {"o": "s/o"}, s=(SHUT, {})), {}, before=lambda: os.getuid() == 0 and os.setuid(65534))
    wrong = wrong_end(ended, 0, [f"the work folder {one.work} can't be removed: "])
    os.chmod(f"{one.folder}/run", 0o777)
    left = [it for _, folders, names in os.walk(one.work) for it in [*folders, *names]]
    return wrong + ([f"{left} is left in the work folder"] if left or not os.path.isdir(one.work) else [])


ATTACKS = (
    ("a command edits an input that a later job reads", edited_input),
    ("a process that a command left writes to an output, which is delivered", left_and_delivered),
    ("the same, and another job reads it", left_and_read),
    ("files that may be run with their owner's rights", rights),
    ("files that are private", private),
    ("outputs have the names of what the run reads or holds", own_files),
    ("a run is killed while it delivers", killed),
    ("30,000 folders in one another", deep),
    ("a word that is too long", too_long),
    ("few files may be open", few_files),
    ("the work folder can't be removed", shut),
)


def main(program):
    failed = 0
    for words, attack in ATTACKS:
        folder = os.path.realpath(tempfile.mkdtemp())
        try:
            answer = attack(Scene(folder, os.path.abspath(program)))
        finally:
            subprocess.run(["rm", "-rf", folder], check=False)
        wrong, more = answer if isinstance(answer, tuple) else (answer, "")
        failed += bool(wrong)
        print(f"{'WRONG' if wrong else 'right'}  {words}{f' ({more})' if more else ''}{': ' if wrong else ''}{'; '.join(wrong)}"[:2_000], flush=True)
    print(f"not as it has to be: {failed}")
    return 1 if failed else 0


if __name__ == "__main__":
    if len(sys.argv) != 2:
        sys.exit(print(__doc__) or 2)
    sys.exit(main(sys.argv[1]))
