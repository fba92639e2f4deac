"""Imports documents and input objects that were altered at random: each import has to end in words, to show nothing that a terminal hides, and to write in its own folder alone.

usage: imports.py PROGRAM [COUNT] [SEED]

The documents are those of import/tests/laboratory and import/tests/javascript, as JSON, each with its input object; one of the two is altered as `mutations.py` does it, or by
names and literals that lead astray. Each import is made in this process, so an exception that no word stands for is seen, and has 10 seconds of a processor. Its status has to be
0, 1 or 33, with words where it is not 0. What lies beside the folder of the import has to be as it was; that is looked at every 100 imports. PROGRAM is not started.
The status is 1 where something is not so; the case stays in a folder that is named. Needs Python 3.8 or later and a YAML library.
"""

import contextlib
import copy
import glob
import io
import json
import os
import random
import shutil
import sys
import tempfile
import time
import traceback

import mutations
from mutants import HIDDEN

TOP = os.path.dirname(os.path.dirname(os.path.dirname(os.path.realpath(__file__))))
sys.dont_write_bytecode = True
sys.path.insert(0, f"{TOP}/import")
from deparohi_import import program as importer  # noqa: E402
from deparohi_import.reading import read_file  # noqa: E402

COUNT, SECONDS, EACH = 3_000, 10, 100
NAMES = ("a\0b", "\x1b[31m\u202e", "..", "/etc/passwd", "x" * 300, "#", "a#b", "file:///a%00b", "%", "_:x", "-x", "", "__proto__", "report.txt", "main.json.new", "a/../b")
# What is put into documents and input objects.
ODD = [
    *({"class": kind, key: name} for kind in ("File", "Directory") for key in ("path", "location", "basename") for name in NAMES),
    *({"class": "File", "contents": "x", "basename": name} for name in NAMES),
    *({"class": "Directory", "basename": name, "listing": [{"class": "File", "path": "x"}, {"class": "File", "path": "y", "basename": name}]} for name in NAMES),
    *({key: name} for key in ("$import", "$include", "$mixin", "run", "id", "class", "cwlVersion", "name") for name in (*NAMES, ".", "/dev/zero", "http://h/y")),
    *({"type": it} for it in ("array", "record", "enum", "float", "double?", {"type": "array", "items": {"type": "array"}}, {"type": "record", "fields": [1]}, {"type": "enum", "symbols": [1]})),
]


def cases(room):
    """Returns the documents of a copy of the tests, each with the input object beside it, as JSON."""
    found = []
    for name in ("laboratory", "javascript"):
        shutil.copytree(f"{TOP}/import/tests/{name}", f"{room}/{name}")
    for path in sorted(glob.glob(f"{room}/**/*.cwl", recursive=True)):
        beside = [it for it in (f"{os.path.dirname(path)}/job.yml", f"{path[:-4]}.yml") if os.path.exists(it)]
        found.append((os.path.dirname(path), *(json.dumps(it).encode() for it in (read_file(path), read_file(beside[0]) if beside else {}))))
    return found


def altered(chance, text):
    """Returns a JSON text that was altered at random: in half of the cases names and values that lead astray were put into it."""
    if chance.random() < 0.5:
        return mutations.altered_json(chance, text, [])
    value = json.loads(text)
    for _ in range(chance.choice((1, 1, 2))):
        holder = chance.choice(mutations.holders(value) or [[0]])
        key = chance.choice([*holder] if isinstance(holder, dict) else [*range(len(holder))])
        if isinstance(holder, dict) and chance.random() < 0.3:
            holder[chance.choice(NAMES)] = holder.pop(key)
        else:
            holder[key] = copy.deepcopy(chance.choice([*ODD, *NAMES]))
    return json.dumps(value).encode()


def put(path, content):
    with open(path, "wb") as it:
        it.write(content)


def looked(room):
    """Returns what lies in a folder: each name with its size and the time of its last change, without what imports read and write."""
    found = {}
    for at, folders, names in os.walk(room):
        folders[:] = [it for it in folders if it != "imported"]
        for it in [*folders, *names]:
            state = os.lstat(f"{at}/{it}")
            found[f"{at}/{it}"] = (state.st_mode, state.st_size if it in names else 0, state.st_mtime_ns if it in names else 0)
    return {key: it for key, it in found.items() if os.path.basename(key) not in ("altered.json", "altered-inputs.json")}


def wrong_import(folder, out):
    """Imports what was altered, and returns its status and what is wrong."""
    said, begun = io.TextIOWrapper(io.BytesIO(), encoding="utf-8"), time.process_time()
    try:
        with contextlib.redirect_stderr(said), contextlib.redirect_stdout(io.TextIOWrapper(io.BytesIO())):
            status = importer.made_of([f"{folder}/altered.json", f"{folder}/altered-inputs.json", "-o", out])[0]
    except Exception:  # (each kind is one that the importer has no word for)
        return None, traceback.format_exc()
    said.flush()
    told, wrong = said.buffer.getvalue().decode(), ""
    if status not in (0, 1, 33) or bool(told) != bool(status):
        wrong = f"it ends with {status} and says {told!r}"
    report = f"{out}/report.txt"
    for text in (told, read_report(report) if status != 1 else ""):
        if HIDDEN.search(text):
            wrong = f"it shows {HIDDEN.search(text)[0]!r}"
    spent = time.process_time() - begun
    return status, wrong or (f"it takes {spent:.1f} s" if spent > SECONDS else "")


def read_report(path):
    with open(path, encoding="utf-8") as it:
        return it.read()


def main(_program, count=COUNT, seed=1):
    chance, room, ended, failed = random.Random(seed), os.path.realpath(tempfile.mkdtemp()), {}, 0
    known = cases(room)
    before = looked(room)
    for number in range(count):
        folder, document, inputs = chance.choice(known)
        is_document = chance.random() < 0.7
        put(f"{folder}/altered.json", altered(chance, document) if is_document else document)
        put(f"{folder}/altered-inputs.json", inputs if is_document else altered(chance, inputs))
        status, wrong = wrong_import(folder, f"{room}/imported")
        if not wrong and number % EACH == EACH - 1 and looked(room) != before:
            wrong = f"these are not as they were, after this import or one of {EACH} before it: {sorted(set(looked(room).items()) ^ set(before.items()))[:4]}"
        ended[status] = ended.get(status, 0) + 1
        if wrong:
            failed += 1
            kept = tempfile.mkdtemp(prefix=f"import-{seed}-{number}-")
            shutil.copy(f"{folder}/altered.json", kept)
            shutil.copy(f"{folder}/altered-inputs.json", kept)
            print(f"WRONG {number}, kept in {kept}: {wrong[-1_500:]}", flush=True)
    shutil.rmtree(room, ignore_errors=True)
    print(f"imports of altered texts: {count}, ended by their status {dict(sorted(ended.items(), key=str))}; not as it has to be: {failed}")
    return 1 if failed else 0


if __name__ == "__main__":
    if not 2 <= len(sys.argv) <= 4:
        sys.exit(print(__doc__) or 2)
    sys.exit(main(sys.argv[1], *map(int, sys.argv[2:])))
