"""Imports between files, and names of files."""

import unittest

from .helping import TOOL, InFolder

from deparohi_import.fault import ImportFault


class Loading(InFolder):
    def refused(self, text: str, words: str, line: int) -> None:
        with self.assertRaises(ImportFault) as found:
            self.imported(text)
        self.assertIn(words, found.exception.words)
        self.assertEqual(line, found.exception.line)

    def test_imports_are_put_in_place(self) -> None:
        self.write("in/inputs.yml", "a: {type: File, default: {class: File, location: x.txt}}\n")
        self.write("doc.txt", "some words")
        self.write("mixed.yml", "type: string\ndoc: theirs\n")
        text = TOOL + "doc: {$include: doc.txt}\ninputs: {$import: in/inputs.yml}\noutputs:\n  o: {$mixin: mixed.yml, doc: own, outputBinding: {glob: x}}\n"
        made = self.imported(text)
        self.assertEqual("some words", made["doc"])
        self.assertEqual(f"file://{self.path}/in/x.txt", made["inputs"]["a"]["default"]["location"])
        self.assertEqual({"type": "string", "doc": "own", "outputBinding": {"glob": "x"}}, made["outputs"]["o"])

    def test_a_list_that_is_imported_into_a_list(self) -> None:
        self.write("more.yml", "[{id: b, type: int}, {id: c, type: int}]")
        made = self.imported(TOOL + "inputs: [{id: a, type: int}, {$import: more.yml}]\noutputs: []\n")
        self.assertEqual(["a", "b", "c"], [it["id"] for it in made["inputs"]])

    def test_a_circle_of_imports(self) -> None:
        self.write("one.yml", "{$import: two.yml}")
        self.write("two.yml", "\n{$import: one.yml}")
        self.refused(TOOL + "inputs: {$import: one.yml}\noutputs: []\n", "imports itself", 2)

    def test_a_bomb_of_imports(self) -> None:
        for at in range(30):
            self.write(f"b{at}.yml", f"[{', '.join(['[{$import: b%d.yml}]' % (at + 1)] * 9)}]" if at < 29 else "[x]")
        with self.assertRaises(ImportFault) as found:
            self.imported(TOOL + "inputs: []\noutputs: []\nhints: [{class: 'x:y', z: {$import: b0.yml}}]\n")
        self.assertIn("values", found.exception.words)

    def test_a_bomb_of_texts_and_one_of_names(self) -> None:
        self.write("long.txt", "x" * 100_000)
        with self.assertRaises(ImportFault) as found:
            self.imported(TOOL + "inputs: []\noutputs: []\nhints: [{class: 'x:y', z: [" + ", ".join(["{$include: long.txt}"] * 1000) + "]}]\n")
        self.assertIn("characters", found.exception.words)
        types = ", ".join("{name: %s%d, type: array, items: [a%d, b%d]}" % (name, at, at + 1, at + 1) for at in range(19) for name in "ab")
        with self.assertRaises(ImportFault) as found:
            self.imported(TOOL + "requirements: [{class: SchemaDefRequirement, types: [" + types + ", {name: a19, type: array, items: int}, {name: b19, type: array, items: int}]}]\ninputs: {x: a0}\noutputs: []\n")
        self.assertIn("members", found.exception.words)

    def test_nothing_is_fetched(self) -> None:
        self.refused(TOOL + "inputs:\n  $import: http://example.org/x.yml\noutputs: []\n", "nothing is fetched", 5)
        self.refused(TOOL + "inputs:\n  $import: file://elsewhere/x.yml\noutputs: []\n", "nothing is fetched", 5)

    def test_a_file_that_is_not_there(self) -> None:
        self.refused(TOOL + "inputs:\n  $import: x.yml\noutputs: []\n", "there is no file", 5)

    def test_steps_that_name_documents(self) -> None:
        self.write("tools/my tool.cwl", TOOL + "inputs: {}\noutputs: {}\n")
        text = "cwlVersion: v1.2\nclass: Workflow\ninputs: {}\noutputs: {}\nsteps:\n  s: {in: {}, out: [], run: tools/my%20tool.cwl}\n  t: {in: {}, out: [], run: tools/my%20tool.cwl}\n"
        made = self.imported(text)
        self.assertEqual(["my%20tool.json"] * 2, [made["steps"][it]["run"] for it in "st"])
        self.assertEqual("v1.2", self.read("my tool.json")["cwlVersion"])

    def test_a_document_that_runs_itself(self) -> None:
        text = "cwlVersion: v1.2\nclass: Workflow\ninputs: {}\noutputs: {}\nsteps:\n  s: {in: {}, out: [], run: main.cwl}\n"
        self.refused(text, "runs itself", 6)

    def test_a_document_elsewhere_is_left(self) -> None:
        text = "cwlVersion: v1.2\nclass: Workflow\ninputs: {}\noutputs: {}\nsteps:\n  s: {in: {}, out: [], run: 'https://example.org/t.cwl'}\n"
        self.imported(text)
        self.assertEqual(["remote document 6"], self.left())


if __name__ == "__main__":
    unittest.main()
