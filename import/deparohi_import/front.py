"""`deparohi run` and `deparohi plan` on documents that are no JSON for the runner: an import, the run, and its output object."""

import json
import os
import re
import signal
import stat
import sys
from typing import Any, Dict, List, Optional

from . import program as importer
from .fault import ImportFault
from .formats import with_format
from .kinds import FORMATS, given_back, is_kind
from .pattern import Pattern
from .program import FAILED, for_stdout, say
from .reading import read_text

# The options of the proved program that take a value.
VALUED = ("--work", "--outdir", "--slots", "--retries", "--launcher", "--record", "--archive", "--cache", "--budget", "--base", "--rate")
WORK, MADE_BY = "cwl-work", "made-by"
# What is no such document at all is wrong; any other document that is refused has something that this runner doesn't take.
WRONG_DOCUMENT = Pattern(rb"^refused: (C1|C4|C8|K[0-9])", re.M)


class Words:
    """The words of a command, taken apart: those of the importer, those of the program, and the files."""

    def __init__(self, words: List[str]) -> None:
        self.importer: List[str] = []
        self.program: List[str] = []
        self.files: List[str] = []
        self.imported: Optional[str] = None
        self.work: Optional[str] = None
        at = 0
        while at < len(words):
            if words[at] == "--":
                self.files += words[at + 1 :]
                break
            at += self.take(words, at)

    def take(self, words: List[str], at: int) -> int:
        """Takes a word, and its value where it has one. Returns how many words that were."""
        word, equals, value = words[at].partition("=")
        count = 1
        if word in (*VALUED, *importer.VALUED, "--imported") and not equals:
            value, count = (words[at + 1] if at + 1 < len(words) else ""), 2
        whole = words[at : at + count]
        if word == "--imported":
            self.imported = value
        elif word in importer.VALUED or word in importer.FLAGS:
            self.importer += whole
        elif word.startswith("-") and word != "-":
            self.program += whole
            if word == "--work":
                self.work = value
        else:
            self.files.append(words[at])
        return count

    def tells(self) -> bool:
        """Says whether the user wants words on what is done."""
        asked = {"--verbose", "--explain"} & {*self.program} or os.environ.get("DEPAROHI_EXPLAIN") == "1" or sys.stderr.isatty()
        return bool(asked) and "--quiet" not in self.program


def main(program: str, words: List[str]) -> int:
    """Does what the words, with a first one of run or plan, ask for, and returns the status."""
    taken = Words(words[1:])
    document = taken.files[0]
    if document.endswith(".json") and os.path.exists(f"{document}.numbers") and not taken.importer:
        return started([program, words[0], *taken.program, *taken.files], document)
    if len(taken.files) > 2 or taken.files[1:] == ["-"]:
        print("deparohi: with a document that is no JSON the inputs are one file", file=sys.stderr)
        return importer.USAGE
    folder = taken.imported or f"{(taken.work or WORK).rstrip('/')}-imported"
    if not (taken.imported or is_own(folder)):
        say(f"deparohi: {folder} is a link, or another user's, who could change what is read from it: --imported names it where it is meant")
        return FAILED
    before = text_of(os.path.join(folder, MADE_BY))
    quiet = ["--quiet"] if "--quiet" in taken.program else []
    status, made = importer.made_of([*quiet, "-o", folder, *taken.importer, "--", *taken.files], 0o777 if taken.imported else 0o700)
    if status:
        return status
    if taken.tells():
        say(f"{document} is imported into {folder}, and {os.path.join(folder, 'report.txt')} says how")
        if before and before != text_of(os.path.join(folder, MADE_BY)):
            say("another importer made that folder before: jobs that node does may be computed again")
    return started([program, words[0], *taken.program, *made], made[0])


def is_own(folder: str) -> bool:
    """Says whether a folder that the user hasn't named is the user's own, or isn't there yet."""
    try:
        state = os.lstat(folder)
    except OSError:
        return True
    return not stat.S_ISLNK(state.st_mode) and state.st_uid == os.geteuid()


def text_of(path: str) -> str:
    try:
        return read_text(path)
    except ImportFault:
        return ""


def kinds_beside(document: str) -> Dict[str, Any]:
    """Returns the types and formats by which the outputs of a document are told. Raises ImportFault where they are none."""
    path = f"{document}.numbers"
    try:
        kinds = json.loads(read_text(path))
        formats = kinds.get(FORMATS, {}) if isinstance(kinds, dict) else None
        if isinstance(formats, dict) and all(isinstance(it, str) for it in formats.values()) and all(is_kind(it) for key, it in kinds.items() if key != FORMATS):
            return kinds
    except (ValueError, RecursionError):
        pass
    raise ImportFault("no import has written this; without it numbers with a fraction stay texts", path)


def started(words: List[str], document: str) -> int:
    """Starts the proved program, in place of this one where its output object needs no change."""
    sys.stdout.flush()
    sys.stderr.flush()
    if words[1] != "run" or not os.path.exists(f"{document}.numbers"):
        os.execvp(words[0], words)
    try:
        kinds = kinds_beside(document)
    except ImportFault as fault:
        say(f"deparohi: {fault}")
        return FAILED
    import signal
    import subprocess

    # The program ends at these signals by itself, and says so.
    for one in (signal.SIGINT, signal.SIGTERM, signal.SIGHUP):
        signal.signal(one, lambda *_: None)
    ended = subprocess.run(words, stdout=subprocess.PIPE)
    made = with_numbers(ended.stdout, kinds)
    if made is None:
        sys.stdout.buffer.write(ended.stdout)
        sys.stdout.flush()
    else:
        print(for_stdout(json.dumps(made, ensure_ascii=False, separators=(",", ":"), sort_keys=True)))
    return ended.returncode if ended.returncode >= 0 else 128 - ended.returncode


def with_numbers(text: bytes, kinds: Dict[str, Any]) -> Optional[Dict[str, Any]]:
    """Returns an output object with its numbers, or None where it is none."""
    try:
        made = json.loads(text)
    except ValueError:
        return None
    formats = kinds.get(FORMATS, {})
    return {name: told(it, kinds.get(name, "Any"), formats.get(name)) for name, it in made.items()} if isinstance(made, dict) else None


def told(value: Any, kind: Any, form: Optional[str]) -> Any:
    """Returns an output value as it is told outside."""
    made = given_back(value, kind)
    return with_format(made, form) if form else made


def cwl_runner(room: str, program: str, words: List[str]) -> int:
    """Runs a document as cwltest wants it, and returns the status."""
    taken = Words(words)
    if not 1 <= len(taken.files) <= 2:
        print("usage: cwl-runner [options of deparohi run] FILE[#ID] [INPUTS]", file=sys.stderr)
        return 1
    quiet = ["--quiet"] if "--quiet" in taken.program else []
    status, made = importer.made_of([*quiet, "-o", taken.imported or os.path.join(room, "in"), *taken.importer, "--", *taken.files])
    if status:
        return status if status == importer.UNSUPPORTED else 1
    import subprocess

    work = [] if taken.work else ["--work", os.path.join(room, "work")]
    try:
        ended = subprocess.run([program, "run", *work, *taken.program, *made], stdout=subprocess.PIPE, stderr=subprocess.PIPE)
    except OSError as error:
        print(f"cwl-runner: {program} can't be started: {error.strerror}", file=sys.stderr)
        return 1
    sys.stderr.buffer.write(ended.stderr)
    if ended.returncode:
        return importer.UNSUPPORTED if ended.returncode == importer.UNSUPPORTED and not WRONG_DOCUMENT.search(ended.stderr) else 1
    outputs = with_numbers(ended.stdout, kinds_beside(made[0]) if os.path.exists(f"{made[0]}.numbers") else {})
    if outputs is None:
        sys.stdout.buffer.write(ended.stdout)
    else:
        print("\n".join(map(for_stdout, json.dumps(with_paths(outputs), indent=4, ensure_ascii=False).split("\n"))))
    return 0


def with_paths(value: Any) -> Any:
    """Returns an output object with the path of each File's and Directory's location."""
    if isinstance(value, list):
        return [with_paths(it) for it in value]
    if not isinstance(value, dict):
        return value
    from urllib.parse import unquote

    made = {key: with_paths(it) for key, it in value.items()}
    location = made.get("location")
    if made.get("class") in ("File", "Directory") and isinstance(location, str) and location.startswith("file://"):
        made["path"] = unquote(location[len("file://") :])
    return made
