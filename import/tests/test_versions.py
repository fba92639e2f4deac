"""Where cwl-upgrader is installed: a v1.0 tool that it upgrades is imported to the same document as the tool itself."""

import io
import contextlib
import glob
import json
import logging
import os
import unittest

from .helping import HERE, InFolder

from deparohi_import.choices import Choices
from deparohi_import.fault import ImportFault
from deparohi_import.folder import Folder
from deparohi_import.importing import Import

try:
    import cwlupgrader
    from cwlupgrader.main import load_cwl_document, upgrade_document

    PLACES = [os.path.join(os.path.dirname(cwlupgrader.__file__), "testdata", "v1.0")]
except ImportError:
    PLACES = []

# What the library adds for v1.0, and this runner does for every tool.
ADDED = ("NetworkAccess", "LoadListingRequirement")


def plain(document):
    """Returns a document without what the library adds, and without the places of defaults."""
    hints = [it for it in document.pop("hints", []) if it["class"] not in ADDED]
    binding_alone = [it for it in inputs_of(document) if isinstance(it, dict) and it.get("inputBinding") == {}]
    for it in binding_alone:
        del it["inputBinding"]
    for it in inputs_of(document):
        # The library takes loadContents out of the binding; the runner takes it at both places.
        if isinstance(it, dict) and it.get("inputBinding", {}).pop("loadContents", None):
            it["loadContents"] = True
    return json.dumps({**document, "hints": hints}, sort_keys=True).replace("/up/", "/")


def inputs_of(document):
    inputs = document.get("inputs", [])
    return list(inputs) if isinstance(inputs, list) else list(inputs.values())


@unittest.skipUnless(PLACES, "no cwl-upgrader")
class Versions(InFolder):
    def imported_file(self, path: str, name: str):
        folder = Folder(os.path.join(self.path, name))
        written = Import(folder, set(), Choices(evaluates=False))
        written_name = written.document(path)
        folder.write("")
        with open(os.path.join(folder.path, written_name), encoding="utf-8") as it:
            return json.load(it), written.findings.status()

    def test_our_rules_are_those_of_the_library(self) -> None:
        logging.disable(logging.CRITICAL)
        self.addCleanup(logging.disable, logging.NOTSET)
        compared = 0
        for path in sorted(glob.glob(os.path.join(PLACES[0], "*.cwl"))) + [os.path.join(HERE, "examples", "greet.cwl"), os.path.join(HERE, "examples", "tools", "sort.cwl")]:
            document = load_cwl_document(path)
            if document.get("class") != "CommandLineTool" or document.get("cwlVersion") != "v1.0":
                continue
            with self.subTest(path), contextlib.redirect_stderr(io.StringIO()):
                upgraded = upgrade_document(document, self.path, target_version="v1.2")
                other = os.path.join(self.path, "up", os.path.basename(path))
                os.makedirs(os.path.dirname(other), exist_ok=True)
                with open(other, "w", encoding="utf-8") as it:
                    json.dump(upgraded, it, default=dict)
                try:
                    ours, theirs = self.imported_file(path, "ours"), self.imported_file(other, "theirs")
                except ImportFault as fault:
                    self.fail(str(fault))
                self.assertEqual(plain(ours[0]), plain(theirs[0]))
                self.assertEqual(ours[1], theirs[1])
                compared += 1
        self.assertGreater(compared, 1)

    def test_draft_3(self) -> None:
        text = "cwlVersion: draft-3\nclass: CommandLineTool\nbaseCommand: [echo]\ninputs:\n  - {id: '#word', type: string, inputBinding: {position: 1}}\n"
        made = self.imported(text + "outputs:\n  - {id: '#out', type: File, outputBinding: {glob: out.txt}}\nstdout: out.txt\n")
        self.assertEqual(([], "v1.2", ["word"]), (self.left(), made["cwlVersion"], list(made["inputs"])))
