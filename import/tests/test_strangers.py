"""Documents, input objects and folders of strangers: nothing but what was asked for is read, written or shown, and each ends in words."""

import os
import pty
import stat
import subprocess
import sys
import unittest
from typing import Any, List, Tuple

from .helping import HERE, TOOL, Started

from deparohi_import.fault import ImportFault
from deparohi_import.reading import read_file

ASKED = "requirements:\n  InlineJavascriptRequirement: {}\n"
# A text with each kind of character that a terminal hides, as YAML writes it and as it is shown.
HIDDEN, SHOWN = '"\\e[31m\\n\\x7f\\x9b\\u061c\\u200e\\u202e\\u2066z"', "\\u001b[31m\\u000a\\u007f\\u009b\\u061c\\u200e\\u202e\\u2066z"


class Shown(Started):
    """What a terminal hides is shown by its code."""

    def on_terminal(self, words: List[str], **variables: str) -> str:
        """Returns what a program writes to a terminal as its standard output."""
        ours, theirs = pty.openpty()
        subprocess.run(words, cwd=self.path, env={**os.environ, **variables}, stdin=subprocess.DEVNULL, stdout=theirs, stderr=subprocess.DEVNULL, timeout=60)
        os.close(theirs)
        with open(ours, "rb") as it:
            try:
                return it.read1(1 << 16).decode("utf-8", "surrogateescape")
            except OSError:
                return ""

    def says(self, text: str, name: str = "main.cwl", inputs: str = "") -> str:
        self.write(name, text)
        status, _, said = self.start(name, *([os.path.basename(self.write("job.yml", inputs))] if inputs else []), "-o", "out")
        self.assertIn(status, (1, 33), said)
        self.assertIn(SHOWN, said)
        self.assertTrue(all(it == "\n" or it.isprintable() for it in said), ascii(said))
        return said

    def test_findings(self) -> None:
        self.says(TOOL + f"inputs: []\noutputs: []\nrequirements: [{{class: {HIDDEN}}}]\n")
        with open(os.path.join(self.path, "out", "report.txt"), encoding="utf-8") as it:
            report = it.read()
        self.assertIn(SHOWN, report)
        self.assertTrue(all(it == "\n" or it.isprintable() for it in report), ascii(report))

    def test_faults(self) -> None:
        self.says(f"cwlVersion: {HIDDEN}\nclass: CommandLineTool\n")
        self.says(TOOL + f"inputs: {{$import: {HIDDEN}}}\noutputs: []\n")
        self.says(TOOL + "inputs: {d: Directory}\noutputs: []\n", inputs=f"d: {{$import: {HIDDEN}}}\n")

    def test_names_of_files(self) -> None:
        name = "a\x1b[31m\n\x7f\x9b\u061c\u200e\u202e\u2066z.cwl"
        self.says("class: Workflow\n", name)
        self.write(name, TOOL + "inputs: []\noutputs: []\n")
        importer = [sys.executable, os.path.join(HERE, "deparohi-import"), name, "-o", "out"]
        self.assertIn(f"a{SHOWN}.json\r\n", self.on_terminal(importer, DEPAROHI="/bin/false"))
        made = f"{self.path}/out/{name[:-4]}.json\n"
        self.assertEqual(made.encode(), subprocess.run(importer, cwd=self.path, env={**os.environ, "DEPAROHI": "/bin/false"}, stdout=subprocess.PIPE).stdout)

    def test_wrong_words(self) -> None:
        status, _, said = self.start("--\x1b[31m\u202e", "main.cwl", "-o", "out")
        self.assertEqual((3, True), (status, "unrecognized arguments: --\\u001b[31m\\u202e" in said), ascii(said))

    def test_names_that_are_no_utf_8(self) -> None:
        os.rename(self.write("main.cwl", "class: Workflow\n"), os.path.join(self.path, os.fsdecode(b"\xff\x9b.cwl")))
        status, _, said = self.start(os.fsdecode(b"\xff\x9b.cwl"), "-o", "out")
        self.assertEqual((1, True), (status, "\\udcff\\udc9b.cwl" in said), ascii(said))

    def test_output_objects(self) -> None:
        object_of = '{"o":"\x7f\x9b\u202e"}'
        os.chmod(self.write("program", f"#!/bin/sh\nprintf '%s\\n' '{object_of}'\n"), 0o755)
        self.write("main.json.numbers", '{"o": "double"}')
        self.write("main.json", "{}")
        front = [sys.executable, os.path.join(HERE, "deparohi-front"), os.path.join(self.path, "program"), "run", "main.json"]
        self.assertEqual('{"o":"\\u007f\\u009b\\u202e"}\r\n', self.on_terminal(front))
        self.assertEqual(object_of + "\n", subprocess.run(front, cwd=self.path, stdout=subprocess.PIPE).stdout.decode())


class Refused(Started):
    """What can't be imported ends in words, and never in a traceback."""

    def ends(self, text: str, words: str, inputs: str = "", status: int = 1) -> None:
        self.write("main.cwl", text)
        files = ["main.cwl"]
        if inputs:
            self.write("job.yml", inputs)
            files.append("job.yml")
        ended, _, said = self.start(*files, "-o", "out")
        self.assertNotIn("Traceback", said)
        self.assertEqual((status, True), (ended, words in said), said)

    def test_zero_characters_in_names(self) -> None:
        packed = "cwlVersion: v1.2\n$graph:\n- {id: main, class: Workflow, inputs: [], outputs: [], steps: {s: {in: [], out: [], run: \"#t\\0\"}}}\n"
        self.write("main.cwl", packed + "- {id: \"t\\0\", class: CommandLineTool, baseCommand: echo, inputs: [], outputs: []}\n")
        status, lines, said = self.start("main.cwl", "-o", "out")
        self.assertEqual((0, True, ""), (status, os.path.isfile(os.path.join(self.path, "out", "document.json")), said))
        taken = TOOL + "inputs: {d: Directory}\noutputs: []\n"
        self.ends(taken, "job.yml:1: basename: ", 'd: {class: Directory, listing: [{class: File, path: x, basename: "a\\0b"}]}\n')
        self.ends(taken, "job.yml:1: location: ", 'd: {class: Directory, path: "a\\0b"}\n')

    def test_names_in_a_folder(self) -> None:
        taken = TOOL + "inputs: {d: Directory}\noutputs: []\n"
        for name in ("..", ".", "a/b", "/etc"):
            self.ends(taken, "job.yml:1: basename: ", f"d: {{class: Directory, listing: [{{class: File, path: x, basename: {name}}}]}}\n")

    def test_names_that_stand_twice_in_a_folder(self) -> None:
        taken = TOOL + "inputs: {d: Directory}\noutputs: []\n"
        self.ends(taken, "job.yml:4: repeated name: ", "d:\n  class: Directory\n  listing: [{class: File, path: one/x},\n    {class: File, path: two/x}]\n")
        self.ends(taken, "job.yml:1: repeated name: ", "d: {class: Directory, listing: [{class: File, path: x}, {class: Directory, path: y, basename: x}]}\n")
        # One file that stands there twice is one.
        self.write("job.yml", "d: {class: Directory, listing: [{class: File, path: one/x}, {class: File, path: one/x}]}\n")
        self.assertEqual(0, self.start("main.cwl", "job.yml", "-o", "out")[0])

    def test_companions_of_what_is_no_file(self) -> None:
        text = TOOL + ASKED + "inputs: {f: {type: File, secondaryFiles: ['$(self.basename.split(\"x\")[0])']}}\noutputs: []\n"
        self.ends(text, "job.yml:1: remote file: ", "f: {class: File, location: 'http://example.org/x'}\n", 33)
        self.ends(text, "job.yml:1: location: ", 'f: {class: File, path: "a\\0b"}\n')

    def test_odd_values(self) -> None:
        step = "cwlVersion: v1.2\nclass: Workflow\nrequirements: {InlineJavascriptRequirement: {}, ScatterFeatureRequirement: {}, StepInputExpressionRequirement: {}}\ninputs: {a: 'int[]'}\noutputs: []\n"
        step += "steps: {s: {scatter: a, in: {a: {source: a, valueFrom: '$(self + 1)'}}, out: OUT, run: {class: CommandLineTool, baseCommand: x, inputs: {a: int}, outputs: []}}}\n"
        for out in ("[1]", "1", "[[]]"):
            self.ends(step.replace("OUT", out), "main.cwl:6: form of ", status=33)
        files = TOOL + ASKED + "inputs: {fs: 'File[]'}\noutputs: []\narguments: ['$(inputs.fs.map(function (f) {return f.path;}))']\n"
        self.write("main.cwl", files)
        for value in ("1", "true", "x", "{a: 1}"):
            self.write("job.yml", f"fs: {value}\n")
            self.assertNotIn("Traceback", self.start("main.cwl", "job.yml", "-o", "out")[2])

    def test_half_of_a_pair_of_surrogates(self) -> None:
        self.ends(TOOL + 'inputs: []\noutputs: []\ndoc: "\\ud800"\n', "main.cwl:6: a text has half of a pair of surrogates")

    def test_numbers_beside_a_document(self) -> None:
        os.chmod(self.write("program", "#!/bin/sh\necho '{\"o\": [1]}'\n"), 0o755)
        self.write("main.json", "{}")
        for text in ("x", "[1]", '{"o": 1}', '{"o": {"type": "array"}}', '{"o": {"type": "record", "fields": [{}]}}', '{"deparohi:formats": 1}', '{"deparohi:formats": {"o": 1}}', "[" * 100_000):
            self.write("main.json.numbers", text)
            ended = subprocess.run([sys.executable, os.path.join(HERE, "deparohi-front"), os.path.join(self.path, "program"), "run", "main.json"], cwd=self.path, stdout=subprocess.PIPE, stderr=subprocess.PIPE, universal_newlines=True)
            self.assertEqual((1, ""), (ended.returncode, ended.stdout), ended.stderr)
            self.assertRegex(ended.stderr, r"\Adeparohi: .*main\.json\.numbers: [^\n]*\n\Z")


class Written(Started):
    """Nothing is written but in the folder that was asked for, and nothing of an earlier import stays in what is read."""

    def taken(self, inputs: str) -> Tuple[int, str]:
        self.write("main.cwl", TOOL + "inputs: {f: 'File?', d: 'Directory?'}\noutputs: []\n")
        self.write("job.yml", inputs)
        status, _, said = self.start("main.cwl", "job.yml", "-o", "out")
        return status, said

    def link(self, name: str, to: str) -> None:
        os.makedirs(os.path.join(self.path, os.path.dirname(name)), exist_ok=True)
        os.symlink(os.path.join(self.path, to), os.path.join(self.path, name))

    def test_links_at_interim_names(self) -> None:
        self.write("mine", "mine")
        for name in ("main.json.new", "inputs.json.new", "report.txt.new", "literals/0/x.new"):
            self.link(f"out/{name}", "mine")
        self.link("out/made-by.new", "absent")
        self.assertEqual((0, ""), self.taken("f: {class: File, basename: x, contents: theirs}\n"))
        with open(os.path.join(self.path, "mine"), encoding="utf-8") as it:
            self.assertEqual("mine", it.read())
        self.assertFalse(os.path.lexists(os.path.join(self.path, "absent")))

    def test_folders_that_are_links(self) -> None:
        for at, name in enumerate(("literals", "literals/0")):
            with self.subTest(name):
                os.makedirs(os.path.join(self.path, "mine"), exist_ok=True)
                self.link(f"out-{at}/{name}", "mine")
                self.write("main.cwl", TOOL + "inputs: {f: File}\noutputs: []\n")
                self.write("job.yml", "f: {class: File, basename: authorized_keys, contents: theirs}\n")
                status, _, said = self.start("main.cwl", "job.yml", "-o", f"out-{at}")
                self.assertEqual((1, True), (status, f"out-{at}/{name}: " in said), said)
                self.assertEqual([], os.listdir(os.path.join(self.path, "mine")))

    def front(self, *words: str, change: str = "pass") -> "subprocess.CompletedProcess[str]":
        """Runs main.cwl by the command, with a program that does nothing, after a change in Python."""
        self.write("main.cwl", TOOL + "inputs: []\noutputs: []\n")
        code = f"import os, sys; sys.path.insert(0, {HERE!r}); {change}; from deparohi_import.front import main; sys.exit(main('/bin/true', ['run', *{words!r}, 'main.cwl']))"
        return subprocess.run([sys.executable, "-B", "-c", code], cwd=self.path, stdout=subprocess.PIPE, stderr=subprocess.PIPE, universal_newlines=True)

    def test_the_folder_beside_the_work_folder_is_no_link(self) -> None:
        os.mkdir(os.path.join(self.path, "mine"))
        self.link("cwl-work-imported", "mine")
        ended = self.front()
        self.assertEqual((1, []), (ended.returncode, os.listdir(os.path.join(self.path, "mine"))))
        self.assertIn("cwl-work-imported is a link, or another user's", ended.stderr)
        # A link that the user names is meant.
        self.assertEqual(0, self.front("--imported", "cwl-work-imported").returncode)

    def test_the_folder_beside_the_work_folder_is_the_users_own(self) -> None:
        os.mkdir(os.path.join(self.path, "cwl-work-imported"))
        other = "os.geteuid = lambda: 54321"
        ended = self.front(change=other)
        self.assertEqual((1, []), (ended.returncode, os.listdir(os.path.join(self.path, "cwl-work-imported"))))
        self.assertIn("cwl-work-imported is a link, or another user's", ended.stderr)
        self.assertEqual(0, self.front("--imported", "cwl-work-imported", change=other).returncode)

    def test_the_folder_beside_the_work_folder_is_entered_by_its_owner_alone(self) -> None:
        self.assertEqual(0, self.front(change="os.umask(0o022)").returncode)
        self.assertEqual(0o700, stat.S_IMODE(os.stat(os.path.join(self.path, "cwl-work-imported")).st_mode))
        self.assertEqual(0, self.front("--imported", "named", change="os.umask(0o022)").returncode)
        self.assertEqual(0o755, stat.S_IMODE(os.stat(os.path.join(self.path, "named")).st_mode))

    def test_a_folder_has_what_is_listed_now(self) -> None:
        both = "d: {class: Directory, listing: [{class: File, path: job.yml}, {class: File, path: main.cwl, basename: m}]}\n"
        self.assertEqual((0, ""), self.taken(both))
        self.assertEqual(["job.yml", "m"], sorted(os.listdir(os.path.join(self.path, "out", "literals", "0", "folder"))))
        self.assertEqual((0, ""), self.taken("d: {class: Directory, listing: [{class: File, path: job.yml, basename: m}]}\n"))
        self.assertEqual(["m"], os.listdir(os.path.join(self.path, "out", "literals", "0", "folder")))
        self.assertEqual(os.path.join(self.path, "job.yml"), os.readlink(os.path.join(self.path, "out", "literals", "0", "folder", "m")))


class Special(Started):
    """A pipe isn't waited for, and a device isn't opened."""

    def pipe(self, name: str) -> str:
        os.makedirs(os.path.dirname(os.path.join(self.path, name)), exist_ok=True)
        os.mkfifo(os.path.join(self.path, name))
        return name

    def test_pipes(self) -> None:
        self.pipe("pipe")
        self.write("main.cwl", TOOL + "inputs: []\noutputs: []\ndoc: {$include: pipe}\n")
        self.write("plain.cwl", TOOL + "inputs: []\noutputs: []\n")
        for words in (("pipe",), ("plain.cwl", "pipe"), ("main.cwl",)):
            status, _, said = self.start(*words, "-o", "out")
            self.assertEqual((1, True), (status, "regular file" in said), said)

    def test_pipes_beside_what_is_run(self) -> None:
        self.write("plain.cwl", TOOL + "inputs: []\noutputs: []\n")
        self.write("main.json", "{}")
        self.pipe("cwl-work-imported/made-by")
        self.pipe("main.json.numbers")
        for document, status in (("plain.cwl", 0), ("main.json", 1)):
            ended = subprocess.run([sys.executable, os.path.join(HERE, "deparohi-front"), "/bin/true", "run", "--explain", document], cwd=self.path, stdout=subprocess.PIPE, stderr=subprocess.PIPE, timeout=20)
            self.assertEqual(status, ended.returncode, ended.stderr)

    def test_a_device_is_not_opened(self) -> None:
        opened: List[Any] = []

        def note(event: str, values: Tuple[Any, ...]) -> None:
            if event == "open" and values[0] == "/dev/zero":
                opened.append(values)

        sys.addaudithook(note)
        with self.assertRaises(ImportFault):
            read_file("/dev/zero")
        self.assertEqual([], opened)


if __name__ == "__main__":
    unittest.main()
