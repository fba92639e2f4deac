"""The importer's copy of the runner's table, and the page that is made of it, are as the code has them."""

import json
import os
import subprocess
import sys
import unittest

from .helping import HERE, TOP, InFolder, program

from deparohi_import.standard import STANDARD
from deparohi_import.table import OBJECTS


class Codes(InFolder):
    @unittest.skipUnless(program(), "no program deparohi")
    def test_the_runner_refuses_with_the_codes_of_the_page(self) -> None:
        with open(os.path.join(HERE, "deparohi_import", "standard.json"), encoding="utf-8") as it:
            rows = json.load(it)["features"]
        for feature, words, _, document, code in rows:
            if code:
                with self.subTest(feature):
                    ended = subprocess.run([program(), "run", "--work", self.path, self.write("it.json", document)], stdout=subprocess.PIPE, stderr=subprocess.PIPE, universal_newlines=True)
                    self.assertEqual(f"refused: {code}", ended.stderr.splitlines()[0])
                    self.assertIn(code, words)


class Table(unittest.TestCase):
    @unittest.skipUnless(os.path.isdir(os.path.join(TOP, "crates", "document_table")), "the crate is not here")
    def test_the_files_are_as_the_script_makes_them(self) -> None:
        ended = subprocess.run([sys.executable, os.path.join(HERE, "make-table"), "--check"], stderr=subprocess.PIPE, universal_newlines=True)
        self.assertEqual((0, ""), (ended.returncode, ended.stderr))

    def test_the_standard_has_each_field_of_the_table(self) -> None:
        for kind, rows in OBJECTS.items():
            if kind != "PlainRequirement":
                self.assertEqual([], [it.name for it in rows if it.name not in STANDARD[kind]], kind)
