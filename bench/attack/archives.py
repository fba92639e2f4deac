"""Alters an archive in one way at a time, and asks that the same run then ends with the right outputs, having computed what was lost.

usage: archives.py PROGRAM [SEED [WORD..]]        the seed is 1 where none is given; WORD picks the lines that have it

scene.py has the workflow. After a run that archived everything, a file or a folder of the archive is altered as a line says, and the same run comes again. It has to
start just the jobs whose files were altered, or to end with the fault that the line says; to leave all else on the disk as it was; and where it ran, the run after it
has to start no job. At the end two runs at one time: over one record, where the second has to be refused at once, and over one archive with a record each.
It runs as nobody where root calls it, since root may write everything. It prints a line for each, and what is not so. The status is 1 where something is not so.
Needs Linux, sqlite3 and Python 3.8 or later.
"""

import os
import shutil
import subprocess
import sys
import tempfile
import time

sys.dont_write_bytecode = True
sys.path.insert(0, os.path.dirname(os.path.realpath(__file__)))
import scene

NOBODY = 65534
# The numbers of files that are altered: of two large ones, and of one with no byte.
LARGE, OTHER, EMPTY = 5, 7, 0


class Kept:
    """An archive that is full, a copy of it, and the places of its files."""

    def __init__(self, one):
        self.scene, self.copy, self.outside = one, f"{one.folder}/kept", f"{one.folder}/outside"
        os.makedirs(self.outside)
        one.clear()
        status, said, starts, others = one.ran()
        wrong = one.wrong_outputs(said)
        if status or wrong or others or len(starts) != scene.JOBS:
            sys.exit(f"the first run ends with {status}: {others} {wrong}, {len(starts)} jobs started")
        rows, _ = one.rows()
        self.uppers = {scene.sum_of(key.encode()): files[0][3] for key, files, _ in rows if files[0][0] == "upper"}
        self.dirs = {file[3]: scene.sum_of(key.encode()) for key, files, _ in rows for file in files if file[0] == "d/copy"}
        shutil.copytree(one.archive, f"{self.copy}/files", symlinks=True)
        shutil.copy(one.record, f"{self.copy}/jobs.db")

    def upper(self, number):
        """Returns the folder in the archive of the job that made this file in upper case."""
        checksum = scene.sum_of(self.scene.contents[number].upper())
        return next(f"{self.scene.archive}/{folder}" for folder, it in self.uppers.items() if it == checksum)

    def directory(self, number):
        checksum = scene.sum_of(self.scene.contents[number].upper())
        return f"{self.scene.archive}/{self.dirs[checksum]}"

    def again(self):
        """Puts the record and the archive back as they were when all was archived."""
        self.scene.clear()
        shutil.rmtree(self.outside)
        os.makedirs(self.outside)
        shutil.copytree(f"{self.copy}/files", self.scene.archive, symlinks=True)
        shutil.copy(f"{self.copy}/jobs.db", self.scene.record)


def put(path, content):
    with open(path, "wb") as it:
        it.write(content)


def swap(one, other):
    os.rename(one, f"{one}.aside")
    os.rename(other, one)
    os.rename(f"{one}.aside", other)


def moved_out(kept, path):
    """Moves what is at a path out of the archive, and returns where it is then."""
    target = f"{kept.outside}/moved"
    shutil.move(path, target)
    return target


def replaced(kept, path, make):
    moved_out(kept, path)
    make(path)


def below_a_file(kept, path):
    """Puts a link at a path to what can't be there."""
    put(f"{kept.outside}/file", b"")
    os.symlink(f"{kept.outside}/file/files", path)


def emptied(archive, mode):
    shutil.rmtree(archive)
    os.mkdir(archive, mode)


def flipped(path):
    content = bytearray(scene.content_of(path))
    content[len(content) // 2] ^= 1
    put(path, bytes(content))


ALL = scene.JOBS
# No row has the permissions of a file: those of a delivered one are the archive's.
MODES = ("a file may be written by all, and be run", "in a kept folder: a file may not be run any more")
# What is done, how it is told, and how many jobs then start; or the fault that ends the run.
ALTERATIONS = (
    ("nothing is altered", lambda kept: None, 0),
    ("a file is truncated", lambda kept: os.truncate(f"{kept.upper(LARGE)}/upper", 1_000), 1),
    ("a file is truncated to nothing", lambda kept: os.truncate(f"{kept.upper(LARGE)}/upper", 0), 1),
    ("a file is longer by a byte", lambda kept: put(f"{kept.upper(LARGE)}/upper", kept.scene.contents[LARGE].upper() + b"x"), 1),
    ("an empty file has a byte", lambda kept: put(f"{kept.upper(EMPTY)}/upper", b"x"), 1),
    ("a bit is turned", lambda kept: flipped(f"{kept.upper(LARGE)}/upper"), 1),
    ("two files are swapped", lambda kept: swap(f"{kept.upper(LARGE)}/upper", f"{kept.upper(OTHER)}/upper"), 2),
    ("the folders of two keys are swapped", lambda kept: swap(kept.upper(LARGE), kept.upper(OTHER)), 2),
    ("a file is deleted", lambda kept: os.remove(f"{kept.upper(LARGE)}/upper"), 1),
    ("a file is a link to its bytes", lambda kept: os.symlink(moved_out(kept, f"{kept.upper(LARGE)}/upper"), f"{kept.upper(LARGE)}/upper"), 1),
    ("a file is a link that leads nowhere", lambda kept: replaced(kept, f"{kept.upper(LARGE)}/upper", lambda path: os.symlink("nowhere", path)), 1),
    ("a file is a folder", lambda kept: replaced(kept, f"{kept.upper(LARGE)}/upper", os.mkdir), 1),
    ("a file is a pipe", lambda kept: replaced(kept, f"{kept.upper(LARGE)}/upper", os.mkfifo), 1),
    (MODES[0], lambda kept: os.chmod(f"{kept.upper(LARGE)}/upper", 0o777), 0),
    ("a file may not be read", lambda kept: os.chmod(f"{kept.upper(LARGE)}/upper", 0), "H7"),
    ("a file is there that no row has", lambda kept: put(f"{kept.upper(LARGE)}/more", b"more"), 0),
    ("in a kept folder: a file is truncated", lambda kept: os.truncate(f"{kept.directory(LARGE)}/d/below/run", 1_000), 1),
    ("in a kept folder: a file is deleted", lambda kept: os.remove(f"{kept.directory(LARGE)}/d/below/lines"), 1),
    ("in a kept folder: a folder is deleted", lambda kept: shutil.rmtree(f"{kept.directory(LARGE)}/d/below"), 1),
    (MODES[1], lambda kept: os.chmod(f"{kept.directory(LARGE)}/d/below/run", 0o644), 0),
    ("in a kept folder: a file is there that no row has", lambda kept: put(f"{kept.directory(LARGE)}/d/below/more", b"more"), 0),
    ("a kept folder is a link to itself", lambda kept: os.symlink(moved_out(kept, f"{kept.directory(LARGE)}/d"), f"{kept.directory(LARGE)}/d"), 1),
    ("a kept folder is a file", lambda kept: replaced(kept, f"{kept.directory(LARGE)}/d", lambda path: put(path, b"d")), 1),
    ("a key's folder is deleted", lambda kept: shutil.rmtree(kept.upper(LARGE)), 1),
    ("a key's folder is empty", lambda kept: os.remove(f"{kept.upper(LARGE)}/upper"), 1),
    ("a key's folder is a link to itself", lambda kept: os.symlink(moved_out(kept, kept.upper(LARGE)), kept.upper(LARGE)), 1),
    ("a key's folder is a file", lambda kept: replaced(kept, kept.upper(LARGE), lambda path: put(path, b"key")), 1),
    ("a key's folder may not be searched", lambda kept: os.chmod(kept.upper(LARGE), 0), "H7"),
    ("the archive is deleted", lambda kept: shutil.rmtree(kept.scene.archive), ALL),
    ("the archive is emptied", lambda kept: emptied(kept.scene.archive, 0o755), ALL),
    ("the archive is a link to itself", lambda kept: os.symlink(moved_out(kept, kept.scene.archive), kept.scene.archive), 0),
    ("the archive may not be written", lambda kept: os.chmod(kept.scene.archive, 0o555), 0),
    ("the archive may not be searched", lambda kept: os.chmod(kept.scene.archive, 0), "H7"),
)
# The same of an archive that keeps nothing of a run, so that the next one starts every job too.
UNKEPT = (
    ("the archive is empty, and may not be written", lambda kept: emptied(kept.scene.archive, 0o555)),
    ("the archive is a file", lambda kept: replaced(kept, kept.scene.archive, lambda path: put(path, b"archive"))),
    ("the archive would be below a file", lambda kept: replaced(kept, kept.scene.archive, lambda path: below_a_file(kept, path))),
)

def all_else(one):
    """Returns what the folder of a scene has beside what a run may write: path, kind and permissions, and content."""
    found, own = {}, {one.work, one.out, one.archive, one.record, f"{one.record}-wal"}
    for at, folders, names in os.walk(one.folder):
        folders[:] = [name for name in folders if f"{at}/{name}" not in own]
        for name in [*folders, *names]:
            path = f"{at}/{name}"
            if path not in own:
                content = os.readlink(path) if os.path.islink(path) else scene.content_of(path) if os.path.isfile(path) else ""
                found[path] = (os.lstat(path).st_mode, content)
    return found


class Told:
    """Prints what was tried, and counts what is not as it has to be."""

    def __init__(self):
        self.wrong = 0

    def line(self, words, found):
        """Prints a line: what was tried, and what is wrong, if anything."""
        self.wrong += bool(found)
        print(f"{'WRONG' if found else 'right'}  {words}{': ' if found else ''}{'; '.join(found)}", flush=True)


def unlocked(one):
    """Gives the owner the rights to all of the archive again, so that it can be removed."""
    if os.path.isdir(one.archive) and not os.path.islink(one.archive):
        os.chmod(one.archive, 0o700)
        for at, folders, _ in os.walk(one.archive):
            for name in folders:
                os.chmod(f"{at}/{name}", 0o700)


def faults_of_run(one, expected, with_modes=True):
    """Runs, and returns what is not as it has to be: so many jobs start, or this fault ends the run."""
    before = all_else(one)
    status, said, starts, others = one.ran()
    found = []
    if isinstance(expected, str):
        if (status, others[:1]) != (3, [f"fault: {expected}"]):
            found.append(f"it ends with {status}, {others}, and {len(starts)} jobs start")
    else:
        if status or others:
            found.append(f"it ends with {status}: {others}")
        found += one.wrong_outputs(said, with_modes)
        if len(starts) != expected:
            found.append(f"{len(starts)} jobs start, and {expected} have to: {starts}")
    if all_else(one) != before:
        found.append("something else on the disk was changed")
    return found


def tried(kept, told, words, alter, first, then):
    """Alters the archive that is full, and runs twice."""
    kept.again()
    alter(kept)
    found = faults_of_run(kept.scene, first, words not in MODES)
    if then is not None:
        found += [f"then {it}" for it in faults_of_run(kept.scene, then, words not in MODES)]
    unlocked(kept.scene)
    told.line(words, found)


def beside(one, **places):
    """Returns a scene on the same folder with other places."""
    other = object.__new__(scene.Scene)
    other.__dict__.update(one.__dict__)
    other.__dict__.update(places)
    return other


def two_on_one_record(one, told, words):
    """Begins a run on the record that another holds, which has to be refused while the other goes on."""
    one.clear()
    first = one.started()
    while first.poll() is None and not os.path.exists(f"{one.work}/j1"):
        time.sleep(0.005)
    second = beside(one, work=f"{one.folder}/second", out=f"{one.folder}/second.out", archive=f"{one.folder}/second.files")
    begun = time.monotonic()
    status, _, starts, others = second.ran()
    length, goes_on = time.monotonic() - begun, first.poll() is None
    said, _ = first.communicate(timeout=scene.SECONDS)
    found = [f"the first: {it}" for it in one.wrong_outputs(said)]
    if first.returncode:
        found.append(f"the first ends with {first.returncode}")
    if (status, others[:1], starts) != (3, ["fault: R4"], []):
        found.append(f"the second ends with {status}, {others}, and {len(starts)} jobs start")
    if not goes_on:
        found.append(f"the first had ended when the second was refused, which took {length * 1000:.0f} ms")
    told.line(f"{words}: the second was refused in {length * 1000:.0f} ms", found + [f"then {it}" for it in faults_of_run(one, 0)])


def two_on_one_archive(one, told, words):
    """Runs twice at one time, each with a record of its own, over one archive."""
    one.clear()
    second = beside(one, work=f"{one.folder}/second", out=f"{one.folder}/second.out", record=f"{one.folder}/second.db")
    second.clear_run()
    pair = [(it, it.started()) for it in (one, second)]
    found = []
    for it, child in pair:
        said, _ = child.communicate(timeout=scene.SECONDS)
        found += [f"it ends with {child.returncode}"] if child.returncode else it.wrong_outputs(said)
    kept = [key for it in (one, second) for key, files, is_archived in it.rows()[0] if is_archived and not it.is_whole(key, files)]
    if kept:
        found.append(f"{len(kept)} rows are archived, and their files are not whole")
    for it in (one, second):
        status, said, _, _ = it.ran()
        found += [f"then it ends with {status}"] if status else [f"then {wrong}" for wrong in it.wrong_outputs(said)]
    second.clear()
    told.line(f"{words}, each with a record of its own", found)


def try_all(kept, told, wanted):
    """Tries each line that has a wanted word, or all of them where no word is wanted."""

    def is_wanted(words):
        return not wanted or any(word in words for word in wanted)

    for words, alter, expected in ALTERATIONS:
        if is_wanted(words):
            tried(kept, told, words, alter, expected, None if isinstance(expected, str) else 0)
    for words, alter in UNKEPT:
        if is_wanted(words):
            tried(kept, told, words, alter, ALL, ALL)
    for words, two in (("two runs on one record", two_on_one_record), ("two runs on one archive", two_on_one_archive)):
        if is_wanted(words):
            two(kept.scene, told, words)


def main():
    folder = tempfile.mkdtemp()
    program = shutil.copy(sys.argv[1], f"{folder}/deparohi")
    os.chmod(folder, 0o755)
    try:
        if os.geteuid() == 0:
            os.chown(folder, NOBODY, NOBODY)
            os.setgroups([])
            os.setgid(NOBODY)
            os.setuid(NOBODY)
        kept, told = Kept(scene.Scene(f"{folder}/scene", program, int((sys.argv[2:3] or [1])[0]))), Told()
        try_all(kept, told, sys.argv[3:])
        print(f"not as it has to be: {told.wrong}")
        return 1 if told.wrong else 0
    finally:
        subprocess.run(["sh", "-c", 'chmod -R u+rwx "$0"; rm -rf "$0"', folder], check=False, stderr=subprocess.DEVNULL)


if __name__ == "__main__":
    sys.exit(main())
