"""Reading of YAML and JSON: lines, scalars, and what is refused."""

import os
import unittest

from .helping import InFolder

from deparohi_import.fault import ImportFault
from deparohi_import.reading import MOST_BYTES, read_file


class Reading(InFolder):
    def of(self, text: str):
        return read_file(self.write("it.yml", text))

    def refused(self, text: str, words: str, line: int = 0) -> None:
        with self.assertRaises(ImportFault) as found:
            self.of(text)
        self.assertIn(words, found.exception.words)
        if line:
            self.assertEqual(line, found.exception.line)

    def test_yes_and_no_are_texts_as_in_yaml_1_2(self) -> None:
        wanted = {"a": "yes", "b": True, "c": 10, "d": 1.5, "e": None, "f": "no", "g": 255, "h": "1", "i": 8, "j": "2020-01-01"}
        self.assertEqual(wanted, self.of('{a: yes, b: true, c: 10, d: 1.5, e: ~, f: no, g: 0xff, h: "1", i: 0o10, j: 2020-01-01}'))

    def test_numbers_that_json_lacks(self) -> None:
        self.assertEqual(float("inf"), self.of("a: 1e999")["a"])
        self.assertEqual(float("-inf"), self.of("a: -.inf")["a"])
        self.refused("a: " + "9" * 5000, "digits", 1)

    def test_tags_of_yaml_decide(self) -> None:
        self.assertEqual({"a": "5", "b": 5, "c": 2.0}, self.of('{a: !!str 5, b: !!int "5", c: !!float 2}'))
        self.refused("a: !python/object x", "tag", 1)
        self.refused("a: !!int x", "tag", 1)

    def test_a_merge_gives_way_to_own_keys(self) -> None:
        self.assertEqual({"x": {"a": 1, "b": 2}, "y": {"a": 3, "b": 2}}, self.of("x: &x {a: 1, b: 2}\ny: {<<: *x, a: 3}\n"))

    def test_question_marks_in_flow_which_the_parser_in_c_refuses(self) -> None:
        self.assertEqual({"a": ["int?", {"b": "File[]?"}]}, self.of("a: [int?, {b: 'File[]?'}]"))
        self.refused("a: [int?\n", "not YAML")

    def test_lines_are_kept(self) -> None:
        read = self.of("a: 1\nb:\n  - x\n  - y: 2\n")
        self.assertEqual((2, 4, 4), (read.line_of("b"), read["b"].line_at(1), read["b"][1].line_of("y")))

    def test_json_with_tabs_and_pairs_of_surrogates(self) -> None:
        self.assertEqual({"a": ["\U0001f600", 1]}, self.of('{\n\t"a":\t["\\ud83d\\ude00", 1]}'))

    def test_half_of_a_pair_of_surrogates(self) -> None:
        self.refused('{"a": "\\ud800"}', "surrogates")
        self.refused('{"\\udc00": 1}', "surrogates")

    def test_a_key_that_stands_twice(self) -> None:
        self.refused("a: 1\nb: 2\na: 3\n", "stands twice", 3)
        self.refused('{"a": 1,\n "b": {"c": 1,\n  "c": 2}}', "stands twice", 3)
        self.refused('{"a": "\\ud83d\\ude00", "b": 1, "b": 2}', "stands twice")

    def test_a_tab_in_yaml(self) -> None:
        self.refused("a:\n\tb: 1\n", "tab", 2)

    def test_two_documents(self) -> None:
        self.refused("a: 1\n---\nb: 2\n", "second YAML document", 2)

    def test_a_bomb_of_aliases(self) -> None:
        lines = ["a0: &a0 [x, x, x, x, x, x, x, x, x]"]
        lines += [f"a{at}: &a{at} [{', '.join([f'*a{at - 1}'] * 9)}]" for at in range(1, 30)]
        self.refused("\n".join(lines), "aliases")

    def test_a_bomb_of_long_texts(self) -> None:
        self.refused("a: &a " + "x" * 100_000 + "\nb: [" + ", ".join(["*a"] * 1000) + "]\n", "aliases")

    def test_aliases_that_are_wrong(self) -> None:
        self.refused("a: &a [*a]", "inside what it stands for", 1)
        self.refused("a: *b", "no anchor", 1)

    def test_deep_nesting(self) -> None:
        self.refused("[" * 100_000, "nest")
        self.refused("[" * 5_000 + "]" * 5_000, "nest")
        self.refused("".join(" " * at + "a:\n" for at in range(200)), "nest")

    def test_what_is_no_yaml(self) -> None:
        self.refused("a: [1\nb: 2\n", "not YAML")
        self.refused("a: 'x\n", "not YAML")
        self.refused("- a: 1\n b: 2\n", "not YAML")

    def test_what_is_no_text(self) -> None:
        with open(os.path.join(self.path, "it"), "wb") as it:
            it.write(b"a: 1\nb: \xff\n")
        with self.assertRaises(ImportFault) as found:
            read_file(os.path.join(self.path, "it"))
        self.assertEqual(("the text is not UTF-8", 2), (found.exception.words, found.exception.line))

    def test_what_is_too_long(self) -> None:
        self.refused("a: " + "x" * MOST_BYTES, "more than")

    def test_what_is_no_file(self) -> None:
        for path in (self.path, os.path.join(self.path, "absent"), "/dev/zero"):
            with self.assertRaises(ImportFault):
                read_file(path)

    def test_a_key_that_is_no_text(self) -> None:
        self.refused("? [a]\n: 1\n", "a key is")


if __name__ == "__main__":
    unittest.main()
