"""Asks the program `deparohi` whether it takes a document. Nothing is run.

What an import needs only then is imported where it is needed, here and in the other modules: the command starts that much sooner.
"""

import functools
import os
from typing import Any, List, NamedTuple, Optional


class Verdict(NamedTuple):
    accepted: bool
    words: str


def program() -> Optional[str]:
    """Returns the program that DEPAROHI names, or the one in PATH."""
    from shutil import which

    named = os.environ.get("DEPAROHI")
    return named if named else which("deparohi")


@functools.lru_cache(maxsize=None)
def validates(deparohi: str) -> bool:
    """Says whether the program has `run --validate`."""
    return "--validate" in run([deparohi, "run", "--help"]).stdout


def verdict(deparohi: str, document: str, inputs: Optional[str] = None) -> Verdict:
    """Returns whether the program takes a document, with its inputs where they are given."""
    files = [document, *([inputs] if inputs else [])]
    if validates(deparohi):
        ended = run([deparohi, "run", "--validate", "--explain", *files])
        return Verdict(ended.returncode == 0, ended.stderr.strip())
    import tempfile

    with tempfile.TemporaryDirectory() as taken:
        # A program without --validate looks at the documents first, and then finds that its work folder is there already.
        ended = run([deparohi, "run", "--explain", "--work", taken, *files])
    return Verdict("fault: work" in ended.stderr, "" if "fault: work" in ended.stderr else ended.stderr.strip())


def run(words: List[str]) -> Any:
    """Runs a program, and returns how it ended, with its texts."""
    import subprocess

    how = {"stdin": subprocess.DEVNULL, "stdout": subprocess.PIPE, "stderr": subprocess.PIPE, "universal_newlines": True, "errors": "replace"}
    try:
        return subprocess.run(words, **how)  # type: ignore
    except OSError as error:
        return subprocess.CompletedProcess(words, 127, "", f"{words[0]} can't be started: {error.strerror}")
