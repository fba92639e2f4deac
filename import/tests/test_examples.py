"""The documents of docs/use/coming-from-cwltool.md: imported, and run where the program is there. cwltool gave the expected outputs."""

import json
import os
import subprocess
import unittest

from .helping import HERE, InFolder, program

from deparohi_import import node
from deparohi_import.folder import Folder
from deparohi_import.importing import Import

FORCED = {"boxed": {"DockerRequirement"}}
NAMES = ("greet", "sort-all", "packed", "pipe", "boxed", *(("count",) if node.is_there() else ()))


def plain(value):
    """Returns an output with what expected.json has of a File."""
    if isinstance(value, list):
        return [plain(it) for it in value]
    if isinstance(value, dict):
        kept = ("class", "basename", "checksum", "size")
        return {key: plain(it) for key, it in value.items() if key in kept or value.get("class") != "File"}
    return value


class Examples(InFolder):
    def example(self, name: str, forced: set):
        folder = Folder(os.path.join(self.path, name))
        one = Import(folder, forced)
        written = one.document(os.path.join(HERE, "examples", f"{name}.cwl"))
        one.inputs(os.path.join(HERE, "examples", f"{name}.yml"))
        folder.write("")
        return os.path.join(folder.path, written), one.findings

    def test_they_are_taken(self) -> None:
        for name in NAMES:
            with self.subTest(name):
                self.assertEqual(33 if name in FORCED else 0, self.example(name, set())[1].status())
                self.assertEqual(0, self.example(name, FORCED.get(name, set()))[1].status())

    @unittest.skipUnless(program(), "no program deparohi")
    def test_their_outputs_are_those_of_cwltool(self) -> None:
        with open(os.path.join(HERE, "examples", "expected.json"), encoding="utf-8") as it:
            expected = json.load(it)
        for name in NAMES:
            with self.subTest(name):
                document = self.example(name, FORCED.get(name, set()))[0]
                room = os.path.dirname(document)
                words = [program(), "run", "--explain", "--work", f"{room}/work", "--outdir", f"{room}/results", document, f"{room}/inputs.json"]
                ended = subprocess.run(words, stdout=subprocess.PIPE, stderr=subprocess.PIPE, universal_newlines=True)
                self.assertEqual(0, ended.returncode, ended.stderr)
                self.assertEqual(expected[name], plain(json.loads(ended.stdout)))
