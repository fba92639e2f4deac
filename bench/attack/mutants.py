"""Runs the program on documents, input objects, certificates and records that were altered at random, and asks that it answers as it has to.

usage: mutants.py PROGRAM [COUNT [SEED [KIND..]]]      100,000 in all and 1 where they are not given; KIND is a word of KINDS below
       mutants.py PROGRAM --only KIND NUMBER [SEED]    one of them, whose files stay, and what came of it

The texts that are altered are those of the rows (crates/*/stdin, tests/program/rows), of examples/ and of the rows' data. mutations.py says how. Whatever it is given, the program
- ends by itself within SECONDS of processor, and within ten times as long, in at most MEGABYTES of memory, with status 0, 1, 2, 3 or 33;
- writes a result to standard output where the status says so, one line of it, and else nothing;
- says on standard error what the status means, in one line and by a code that there is; with --explain, which half of the calls have, more lines may follow, and none has
  a character that moves, hides or turns others on a terminal;
- leaves each file as it was, writes nothing but below its output folder and its record, and leaves no work folder, unless a delivery failed;
- keeps each byte of a record that it refuses, or only shows; one of version 1 is a record of version 2 before a row of it is refused.
Commands of altered tools run as nobody where root calls this, by a PATH that has a few harmless programs alone, with no file over 64 MiB. Each case has a seed of its own, made of SEED, its kind and its
number. It prints how many ended how, and each case that is not so; its status is 1 where there is one. Needs Linux and Python 3.8 or later; KEEP=DIR keeps the files of those cases.
"""

import collections
import glob
import hashlib
import json
import os
import random
import re
import resource
import shutil
import signal
import sqlite3
import subprocess
import sys
import tempfile
import time
import traceback

sys.dont_write_bytecode = True
sys.path.insert(0, os.path.dirname(os.path.realpath(__file__)))
import mutations

TOP = os.path.dirname(os.path.dirname(os.path.dirname(os.path.realpath(__file__))))
KINDS = ("document", "inputs", "certificate", "record", "recorded")
COUNT, SECONDS, MEGABYTES, NOBODY = 100_000, 20, 512, 65534
PROGRAMS = ("cat", "echo", "false", "printf", "sort", "touch", "true", "uniq", "wc")
CODE = r"[A-Z][1-9][0-9]?"
PLACE = r'"(?:[^"\\]|\\.)*"'
# What standard error begins with, and standard output is, by the status.
TOLD = {
    0: r"",
    1: rf"(permanentFail {PLACE}\n)?",
    2: rf"temporaryFail {PLACE}\n",
    3: rf"fault: (input|work|[HR][1-9]|TooManyJobs|OutOfMemory|Mismatch {PLACE})\n",
    33: rf"refused: {CODE}\n",
}
HIDDEN = re.compile("[\x00-\x09\x0b-\x1f\x7f-\x9f\u061c\u200e\u200f\u202a-\u202e\u2066-\u2069]")
TABLES = """CREATE TABLE meta (name TEXT PRIMARY KEY, value INTEGER NOT NULL) STRICT;
CREATE TABLE job (key TEXT PRIMARY KEY, outputs TEXT NOT NULL, files TEXT NOT NULL, cost INTEGER NOT NULL CHECK (cost BETWEEN 1 AND 1000000000000), archived INTEGER NOT NULL CHECK (archived IN (0, 1))) STRICT;
CREATE TABLE archive (key TEXT PRIMARY KEY, bytes INTEGER NOT NULL CHECK (bytes >= 0), used INTEGER NOT NULL UNIQUE CHECK (used >= 1)) STRICT;
INSERT INTO meta VALUES ('version', 2);
INSERT INTO archive VALUES ('k', 3, 1);"""
HELLO = {"cwlVersion": "v1.2", "class": "CommandLineTool", "baseCommand": "printf", "stdout": "out.txt", "inputs": {"t": {"type": "string", "inputBinding": {"position": 1}}}, "outputs": {"out": "stdout"}}
KEY = '{"env":[],"inputs":{"t":"abc"},"tool":{"baseCommand":"printf","class":"CommandLineTool","inputs":{"t":{"inputBinding":{"position":1},"type":"string"}},"outputs":{"out":"stdout"},"stdout":"out.txt"}}'
SUM = "a9993e364706816aba3e25717850c26c9cd0d89d"


def content_of(path):
    with open(path, "rb") as it:
        return it.read()


def put(path, content):
    with open(path, "wb") as it:
        it.write(content)


def rows():
    for path in [*sorted(glob.glob(f"{TOP}/crates/*/stdin")), f"{TOP}/tests/program/rows"]:
        for line in content_of(path).splitlines():
            if line.startswith(b"{"):
                yield json.loads(line)


def texts():
    """Returns the texts of each kind: documents with their inputs, certificates."""
    pairs = [(it["document"], it.get("inputs") or {}) for it in rows() if isinstance(it.get("document"), dict) and "cwlVersion" in it["document"]]
    for path in sorted(glob.glob(f"{TOP}/examples/*/*.json")):
        value = json.loads(content_of(path))
        if "cwlVersion" in value:
            pairs.append((value, {"text": {"class": "File", "location": "given"}, "texts": [{"class": "File", "location": "given"}], "loud": True}))
    plans = [content_of(it) for it in sorted(glob.glob(f"{TOP}/examples/*/*.plan") + glob.glob(f"{TOP}/crates/test_runs/data/*.txt") + glob.glob(f"{TOP}/tests/program/data/*.txt"))]
    whole = [it for it in plans if it.startswith(b"cwl-plan 1\n") and it.count(b"\n") > 3]
    return [(json.dumps(it).encode(), json.dumps(inputs).encode()) for it, inputs in pairs], whole


def write_record(path):
    """Writes a record of three rows, one of which is the job of HELLO."""
    store = sqlite3.connect(path)
    store.executescript(TABLES)
    file = {"class": "File", "location": "out.txt", "basename": "out.txt", "checksum": f"sha1${SUM}", "size": 3}
    for key, name in ((KEY, "out"), ("k", "o"), ("\u00e9", "p")):
        row = (key, json.dumps({name: file}, separators=(",", ":"), sort_keys=True), json.dumps([["out.txt", False, 3, SUM]], separators=(",", ":")), int(key == "k"))
        store.execute("INSERT INTO job VALUES (?, ?, ?, 7, ?)", row)
    store.commit()
    store.close()


def is_first(content, path):
    """Whether these bytes are a record of version 1, which a run makes one of version 2 before it looks for a row."""
    put(path, content)
    store = sqlite3.connect(path)
    try:
        return store.execute("SELECT value FROM meta WHERE name = 'version' LIMIT 1").fetchone() == (1,)
    except (sqlite3.Error, UnicodeDecodeError):
        return False
    finally:
        store.close()
        os.remove(path)


class Case:
    """A folder in which the program is called on altered files, again and again."""

    def __init__(self, program, folder, is_limited):
        self.program, self.top, self.folder = program, folder, f"{folder}/case"
        self.documents, self.plans = texts()
        self.texts, self.objects = [it[0] for it in self.documents], [it[1] for it in self.documents]
        os.makedirs(f"{self.folder}/bin")
        for name in PROGRAMS:
            os.symlink(shutil.which(name), f"{self.folder}/bin/{name}")
        put(f"{self.folder}/given", b"two words\nand more\n")
        put(f"{self.folder}/hello", json.dumps(HELLO).encode())
        put(f"{self.folder}/abc", b'{"t":"abc"}')
        write_record(f"{self.top}/jobs.db")
        self.databases = [f"{self.top}/jobs.db", *sorted(glob.glob(f"{TOP}/crates/test_runs/data/*.db") + glob.glob(f"{TOP}/tests/program/data/*.db"))]
        self.pages = [content_of(it) for it in self.databases]
        resource.setrlimit(resource.RLIMIT_FSIZE, (64 << 20, 64 << 20))
        resource.setrlimit(resource.RLIMIT_CORE, (0, 0))
        if is_limited:
            resource.setrlimit(resource.RLIMIT_AS, (4 * MEGABYTES << 20, 4 * MEGABYTES << 20))
        self.most = 0

    def words(self, kind, chance):
        """Writes the files of a case, and returns the words that it is called with."""
        at = self.folder
        explain = ["--explain"] if chance.random() < 0.5 else []
        places = ["--work", f"{at}/work", "--outdir", f"{at}/out"]
        if kind == "certificate":
            put(f"{at}/plan", mutations.altered_lines(chance, chance.choice(self.plans), self.plans))
            return ["check", *explain, f"{at}/plan"]
        if kind in ("record", "recorded"):
            number = chance.choice((0, 0, chance.randrange(len(self.pages))))
            put(f"{at}/jobs.db", self.pages[number])
            mutations.altered_database(chance, f"{at}/jobs.db", self.pages)
            if kind == "record":
                forget = ["--forget", hashlib.sha1(b"k").hexdigest()] if chance.random() < 0.3 else []
                return ["record", *explain, *forget, f"{at}/jobs.db"]
            archive = ["--archive", f"{at}/files"] if chance.random() < 0.5 else []
            budget = ["--budget", chance.choice(("0", "4", "9223372036854775807"))] if chance.random() < 0.5 else []
            return ["run", *explain, *places, "--record", f"{at}/jobs.db", *archive, *budget, f"{at}/hello", f"{at}/abc"]
        document, inputs = chance.choice(self.documents)
        if kind == "document":
            document = mutations.altered_json(chance, document, self.texts)
        else:
            inputs = mutations.altered_json(chance, inputs, self.objects)
        put(f"{at}/document", document)
        put(f"{at}/inputs", inputs)
        return ["run", *explain, "--slots", str(chance.choice((1, 4))), *places, f"{at}/document", f"{at}/inputs"]

    def seen(self):
        """Returns what the folder has beside what a run may write, each file with its content."""
        found = {}
        for at, folders, names in os.walk(self.folder):
            if at == self.folder:
                folders[:] = [it for it in folders if it not in ("bin", "work", "out", "files")]
                names = [it for it in names if not it.startswith("jobs.db")]
            for it in [*folders, *names]:
                path = f"{at}/{it}"
                found[path] = content_of(path) if os.path.isfile(path) and not os.path.islink(path) else b""
        return found

    def clear(self):
        subprocess.run(["rm", "-rf", *(f"{self.folder}/{it}" for it in ("work", "out", "files", "plan", "document", "inputs"))], check=False) if self.is_dirty() else None
        for it in glob.glob(f"{self.folder}/jobs.db*"):
            os.remove(it)

    def is_dirty(self):
        return any(os.path.lexists(f"{self.folder}/{it}") for it in ("work", "out", "files"))

    def tried(self, kind, seed):
        """Returns how a case ended, and what is wrong about it."""
        self.clear()
        words = self.words(kind, random.Random(seed))
        before, record = self.seen(), content_of(f"{self.folder}/jobs.db") if kind.startswith("record") else b""
        child = subprocess.Popen([self.program, *words], cwd=self.folder, env={"PATH": f"{self.folder}/bin"}, stdin=subprocess.DEVNULL, stdout=subprocess.PIPE, stderr=subprocess.PIPE)
        try:
            resource.prlimit(child.pid, resource.RLIMIT_CPU, (SECONDS, SECONDS))
            out, err = child.communicate(timeout=10 * SECONDS)
        except ProcessLookupError:
            out, err = child.communicate()
        except subprocess.TimeoutExpired:
            child.kill()
            child.communicate()
        if child.returncode == -signal.SIGKILL:
            return "no end", [f"it had not ended after {SECONDS} seconds of processor, or ten times as long"], words
        ended, wrong = wrong_answer(words, child.returncode, out, err)
        wrong += self.wrong_files(words, child.returncode, err, before, record)
        now = resource.getrusage(resource.RUSAGE_CHILDREN).ru_maxrss >> 10
        if now > max(self.most, MEGABYTES):
            wrong.append(f"it took {now} MB")
        self.most = max(self.most, now)
        return ended, wrong, words

    def wrong_files(self, words, status, err, before, record):
        wrong, after = [], self.seen()
        for it in sorted({*before, *after}):
            if before.get(it) != after.get(it):
                wrong.append(f"{it} has changed")
        may_stay = err.startswith((b"fault: H9", b"fault: work"))
        if os.path.lexists(f"{self.folder}/work") and not may_stay:
            wrong.append("the work folder stays")
        if words[0] == "record" and "--forget" not in words and content_of(f"{self.folder}/jobs.db") != record:
            wrong.append("a record that is shown has changed")
        elif words[0] == "run" and re.match(rb"fault: R[124]", err) and not os.path.lexists(f"{self.folder}/out") and content_of(f"{self.folder}/jobs.db") != record:
            if not is_first(record, f"{self.top}/first.db"):
                wrong.append("a record that is refused has changed")
        return wrong


def wrong_answer(words, status, out, err):
    """Returns how the program ended, by its status and its first line, and what is wrong about that."""
    if status not in TOLD:
        return f"status {status}", [f"it ended with {status}: {err[-300:]!r}"]
    try:
        out, err = out.decode(), err.decode()
    except UnicodeDecodeError:
        return f"status {status}", ["what it wrote is no UTF-8"]
    first, wrong = err.partition("\n")[0], []
    said = re.match(TOLD[status], err)
    if not said or "--explain" not in words and said[0] != err or status == 0 and err and "--explain" not in words:
        wrong.append(f"standard error: {err!r}")
    if HIDDEN.search(err):
        wrong.append(f"what a terminal hides is shown: {err!r}")
    if not re.fullmatch(result_of(words, status, first), out):
        wrong.append(f"standard output: {out!r}")
    elif words[0] == "run" and status == 0 and not isinstance(json.loads(out), dict):
        wrong.append(f"no output object: {out!r}")
    name = "result" if status == 0 else out.strip() if out else re.sub(r'"(?:[^"\\]|\\.)*"', "PLACE", first)
    return HIDDEN.sub("?", f"{status} {name}"), wrong


def result_of(words, status, first):
    """Returns the form of what standard output has to have."""
    if words[0] == "run":
        return r"\{.*\}\n" if status == 0 else ""
    if words[0] == "record":
        return r"([0-9a-f]{40} [0-9]+ [0-9]+ (yes|no)\n)*" if status == 0 else ""
    return r"ok [0-9]+\n" if status == 0 else r"broken [A-Za-z]+\n" if status == 1 else ""


def work(case, jobs, seed, report):
    """Tries cases, and writes a line of JSON for each to a file: its kind and number, how it ended, what is wrong, and the most memory so far."""
    with open(report, "w") as it:
        for kind, number in jobs:
            ended, wrong, _ = case.tried(kind, f"{seed}/{kind}/{number}")
            print(json.dumps([kind, number, ended, wrong, case.most]), file=it, flush=True)
            if wrong:
                keep(case, kind, number)


def keep(case, kind, number):
    target = os.environ.get("KEEP")
    if target:
        shutil.copytree(case.folder, f"{target}/{kind}-{number}", symlinks=True, dirs_exist_ok=True, ignore=lambda at, names: [it for it in names if it == "bin"])


def become_nobody(folder):
    os.chown(folder, NOBODY, NOBODY)
    os.setgroups([])
    os.setgid(NOBODY)
    os.setuid(NOBODY)


def runs_within(program):
    """Says whether the program runs where its memory has a limit: one that checks itself asks for too much."""
    limit = f"ulimit -v {4 * MEGABYTES << 10}; exec \"$0\" --help"
    return subprocess.run(["sh", "-c", limit, program], stdout=subprocess.DEVNULL, stderr=subprocess.DEVNULL, check=False).returncode == 0


def lines_of(reports):
    """Returns how many lines the reports have by now."""
    return sum(content_of(it).count(b"\n") for it in reports if os.path.exists(it))


def workers(program, folder, jobs, seed):
    """Begins as many workers as there are processors, or as JOBS says. Returns each one's process and report."""
    limited, count, begun = runs_within(program), int(os.environ.get("JOBS", len(os.sched_getaffinity(0)))), []
    for at in range(count):
        report = f"{folder}/{at}.json"
        child = os.fork()
        if not child:
            status = 1
            try:
                work(Case(program, f"{folder}/{at}", limited), jobs[at::count], seed, report)
                status = 0
            except BaseException:
                traceback.print_exc()
            finally:
                sys.stderr.flush()
                os._exit(status)
        begun.append((child, report))
    return begun


def ended_all(begun, count):
    """Waits for the workers, and tells how far they are. Returns whether each ended well."""
    left, well, told = dict(begun), True, time.monotonic()
    while left:
        time.sleep(0.2)
        for child in [*left]:
            ended, status = os.waitpid(child, os.WNOHANG)
            if ended:
                well = well and status == 0
                del left[child]
        if time.monotonic() - told > 30:
            told = time.monotonic()
            print(f"{lines_of([it[1] for it in begun])} of {count}", file=sys.stderr, flush=True)
    return well


def all_of(program, folder, count, seed, kinds):
    jobs = [(kinds[number % len(kinds)], number // len(kinds)) for number in range(count)]
    started = time.monotonic()
    begun = workers(program, folder, jobs, seed)
    well = ended_all(begun, count)
    found = [json.loads(line) for _, report in begun for line in content_of(report).splitlines()]
    wrong = [it for it in found if it[3]]
    for kind, number, _, words, _ in wrong:
        print(f"WRONG {kind} {number}: {'; '.join(words)}", flush=True)
    most = max((it[4] for it in found), default=0)
    print(f"seed {seed}: {len(found)} cases in {(time.monotonic() - started) / 60:.1f} minutes, at most {most} MB")
    for (kind, ended), number in sorted(collections.Counter((it[0], it[2]) for it in found).items()):
        print(f"{kind}\t{ended}\t{number}")
    print(f"not as it has to be: {len(wrong)}")
    return 0 if well and not wrong and len(found) == count else 1


def one_of(program, folder, kind, number, seed):
    case = Case(program, folder, runs_within(program))
    ended, wrong, words = case.tried(kind, f"{seed}/{kind}/{number}")
    print(" ".join(words), ended, *wrong, f"its files stay in {case.folder}", sep="\n")
    return 1 if wrong else 0


def main(program, *words):
    folder = os.path.realpath(tempfile.mkdtemp(dir=os.environ.get("ROOM", "/dev/shm" if os.path.isdir("/dev/shm") else None)))
    program = shutil.copy(program, f"{folder}/deparohi")
    os.chmod(folder, 0o755)
    if os.geteuid() == 0:
        become_nobody(folder)
    if words[:1] == ("--only",):
        return one_of(program, folder, words[1], int(words[2]), (words[3:4] or ("1",))[0])
    try:
        count, seed = int((words[0:1] or (COUNT,))[0]), (words[1:2] or ("1",))[0]
        return all_of(program, folder, count, seed, words[2:] or KINDS)
    finally:
        shutil.rmtree(folder, ignore_errors=True)


if __name__ == "__main__":
    sys.exit(main(*sys.argv[1:]) if len(sys.argv) > 1 else print(__doc__) or 2)
