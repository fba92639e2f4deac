"""docs/use/what-is-taken.md says with which code the runner refuses what: it does so."""

import json
import os
import subprocess
import unittest
from typing import Any, Dict, List, Tuple

from .helping import HERE, TOP, InFolder, program

TOOL: Dict[str, Any] = {"cwlVersion": "v1.2", "class": "CommandLineTool", "baseCommand": "true", "inputs": [], "outputs": []}
REMOTE = {"class": "File", "location": "http://example.org/x"}
LITERAL = {"class": "File", "basename": "x.txt", "contents": "x"}


def with_input(kind: Any, **more: Any) -> Dict[str, Any]:
    return {**TOOL, "inputs": {"x": {"type": kind, **more}}}


def with_step(run: str) -> Dict[str, Any]:
    return {"cwlVersion": "v1.2", "class": "Workflow", "inputs": [], "outputs": [], "steps": [{"id": "s", "in": [], "out": [], "run": run}]}


# A word of the page's row, the code that the row has, a document, and the value of its input x.
ROWS: List[Tuple[str, str, Any, Any]] = [
    ("YAML", "C1", "cwlVersion: v1.2\n", None),
    ("v1.0, v1.1", "C2", {**TOOL, "cwlVersion": "v1.1"}, None),
    ("draft-3", "C2", {**TOOL, "cwlVersion": "draft-3"}, None),
    ("`$graph`", "C6", {"cwlVersion": "v1.2", "$graph": []}, None),
    ("`$graph`", "C4", {"cwlVersion": "v1.2", "$graph": [{**TOOL, "id": "#a"}, {**TOOL, "id": "#b"}]}, None),
    ("`$import`", "C5", {**TOOL, "inputs": [{"$import": "x.json"}]}, None),
    ("`$import`", "C6", {**TOOL, "inputs": {"$import": "x.json"}}, None),
    ("`run` with a `#`", "C6", with_step("t.json#main"), None),
    ("ExpressionTool", "C3", {**TOOL, "class": "ExpressionTool"}, None),
    ("Operation", "C3", {**TOOL, "class": "Operation"}, None),
    ("JavaScript: ", "C6", {**TOOL, "arguments": ["${return 1;}"]}, None),
    ("JavaScript: ", "C6", {**TOOL, "arguments": ["$(1 + 1)"]}, None),
    ("Directories at `http:`", "F2", with_input("File"), REMOTE),
    ("Directories at `http:`", "C6", with_input("File", default=REMOTE), None),
    ("Directory literals", "V3", with_input("File"), LITERAL),
    ("Directory literals", "C6", with_input("File", default=LITERAL), None),
    ("`float`", "C6", with_input("float"), None),
    ("`double`", "C6", with_input("double"), None),
    ("numbers with a fraction", "V1", with_input("Any"), 1.5),
    ("records", "C6", with_input({"type": "record", "fields": []}), None),
    ("names of types", "C6", with_input("#kind"), None),
]


class Codes(InFolder):
    def code(self, document: Any, value: Any) -> str:
        """Returns how the runner ends, or nothing where it succeeds."""
        text = document if isinstance(document, str) else json.dumps(document)
        files = [self.write("main.json", text), self.write("job.json", json.dumps({} if value is None else {"x": value}))]
        words = [program(), "run", "--outdir", "results", *files]
        ended = subprocess.run(words, cwd=self.path, stdin=subprocess.DEVNULL, stdout=subprocess.PIPE, stderr=subprocess.PIPE, universal_newlines=True)
        return "" if ended.returncode == 0 else ended.stderr.strip()

    @unittest.skipUnless(program(), "no program deparohi")
    def test_the_codes_are_those_of_the_page(self) -> None:
        with open(os.path.join(TOP, "docs", "use", "what-is-taken.md"), encoding="utf-8") as it:
            rows = [line for line in it if line.startswith("| ")]
        for word, code, document, value in ROWS:
            with self.subTest(word, code=code):
                row = next(line for line in rows if word in line)
                self.assertIn(code, row)
                self.assertEqual(f"refused: {code}", self.code(document, value))

    @unittest.skipUnless(program(), "no program deparohi")
    def test_requirements_are_taken_and_refused_as_the_page_says(self) -> None:
        with open(os.path.join(HERE, "deparohi_import", "standard.json"), encoding="utf-8") as it:
            requirements = json.load(it)["requirements"]
        more = {"EnvVarRequirement": {"envDef": {}}, "WorkReuse": {"enableReuse": True}}
        for name, (required, *_) in {**requirements, "Other": ("refused (C7)",)}.items():
            entry = {"class": name, **more.get(name, {})}
            with self.subTest(name):
                self.assertEqual("" if required.startswith("taken") else "refused: C7", self.code({**TOOL, "requirements": [entry]}, None))
                self.assertEqual("", self.code({**TOOL, "hints": [entry]}, None))


if __name__ == "__main__":
    unittest.main()
