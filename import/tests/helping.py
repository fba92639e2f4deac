"""What the tests share: documents in a folder of their own, and their import."""

import json
import os
import resource
import subprocess
import sys
import tempfile
import time
import unittest
import unittest.mock
from typing import Any, Dict, List, Tuple

HERE = os.path.dirname(os.path.dirname(os.path.realpath(__file__)))
TOP = os.path.dirname(HERE)
sys.path.insert(0, HERE)

from deparohi_import.choices import Choices  # noqa: E402
from deparohi_import.findings import LEFT, WRONG  # noqa: E402
from deparohi_import.folder import INPUTS, Folder  # noqa: E402
from deparohi_import.importing import Import  # noqa: E402
from deparohi_import.process import Rewriter  # noqa: E402
from deparohi_import.program import report_of  # noqa: E402

TOOL = """cwlVersion: v1.2
class: CommandLineTool
baseCommand: echo
"""
SECONDS, BYTES = 10, 1 << 30


def program() -> str:
    """Returns the program deparohi that DEPAROHI names, or the built one, or nothing."""
    built = os.path.join(TOP, "crates", "cwl_main", "out", "cwl_main")
    return os.environ.get("DEPAROHI") or (built if os.access(built, os.X_OK) else "")


class InFolder(unittest.TestCase):
    """A test with a folder of its own. Without `in_job` no tool is done by node as a whole, so that it shows what is left of it."""

    in_job = True

    def setUp(self) -> None:
        self.room = tempfile.TemporaryDirectory()
        self.addCleanup(self.room.cleanup)
        self.path = os.path.realpath(self.room.name)
        if not self.in_job:
            patched = unittest.mock.patch.object(Rewriter, "in_job", return_value=None)
            patched.start()
            self.addCleanup(patched.stop)

    def write(self, name: str, text: str) -> str:
        path = os.path.join(self.path, name)
        os.makedirs(os.path.dirname(path), exist_ok=True)
        with open(path, "w", encoding="utf-8", newline="") as it:
            it.write(text)
        return path

    def read(self, name: str) -> Any:
        with open(os.path.join(self.path, "out", name), encoding="utf-8") as it:
            return json.load(it)

    def imported(self, text: str, inputs: str = "", forced: tuple = (), name: str = "main.cwl", choices: Choices = Choices()) -> Dict[str, Any]:
        """Imports a text, and returns the document that is written of it. What was found is in `findings`."""
        folder = Folder(os.path.join(self.path, "out"))
        one = Import(folder, set(forced), choices)
        written = one.document(self.write(name, text))
        if inputs:
            one.inputs(self.write("job.yml", inputs))
        folder.write(report_of(one.findings, name))
        self.findings = one.findings
        return self.read(written)

    def left(self) -> List[str]:
        """Returns the features that are left or wrong, each with its line."""
        return [f"{it.feature} {it.line}" for it in self.findings.all if it.kind in (LEFT, WRONG)]


class Started(InFolder):
    """A test that starts the programs of import/ as a user does."""

    def start(self, *words: str, name: str = "deparohi-import") -> Tuple[int, List[str], str]:
        """Runs a program of import/ within the limits, and returns its status, its lines and what it said."""
        front = [sys.executable] if name == "deparohi-import" else []
        room = {"PATH": os.environ["PATH"], "DEPAROHI": program() or "/bin/false", "TMPDIR": self.path, "LC_ALL": "C"}

        def limited() -> None:
            resource.setrlimit(resource.RLIMIT_AS, (BYTES, BYTES))

        begun = time.monotonic()
        ended = subprocess.run(
            [*front, os.path.join(HERE, name), *words], stdin=subprocess.DEVNULL, stdout=subprocess.PIPE, stderr=subprocess.PIPE,
            universal_newlines=True, errors="surrogateescape", cwd=self.path, env=room, preexec_fn=limited if front else None, timeout=6 * SECONDS,
        )
        # A machine that proves beside this takes longer: processor time is what counts.
        self.assertLess(min(time.monotonic() - begun, 6 * SECONDS), 6 * SECONDS)
        return ended.returncode, ended.stdout.splitlines(), ended.stderr


__all__ = ["HERE", "INPUTS", "InFolder", "SECONDS", "Started", "TOOL", "TOP", "program"]
