"""The program as a user starts it: its status, its words, its limits of time and memory, and cwl-runner."""

import json
import os
import resource

from .helping import SECONDS, TOOL, Started, program

ENDS = "inputs: []\noutputs: []\n"


class Program(Started):
    def fails(self, text: str, status: int, words: str) -> None:
        self.write("main.cwl", text)
        before = resource.getrusage(resource.RUSAGE_CHILDREN)
        ended, _, said = self.start("main.cwl", "-o", "out")
        after = resource.getrusage(resource.RUSAGE_CHILDREN)
        self.assertEqual(status, ended, said)
        self.assertIn(words, said)
        self.assertNotIn("Traceback", said)
        self.assertLess(after.ru_utime + after.ru_stime - before.ru_utime - before.ru_stime, SECONDS)

    def test_what_is_taken(self) -> None:
        self.write("main.cwl", TOOL + ENDS)
        self.write("job.yml", "a: 1\n")
        status, lines, said = self.start("main.cwl", "job.yml", "-o", "out")
        self.assertEqual((0, [f"{self.path}/out/main.json", f"{self.path}/out/inputs.json"], ""), (status, lines, said))
        with open(lines[0], encoding="utf-8") as it:
            self.assertEqual({"cwlVersion": "v1.2", "class": "CommandLineTool", "baseCommand": "echo", "inputs": [], "outputs": []}, json.load(it))

    def test_what_is_left(self) -> None:
        self.fails(TOOL + ENDS + "arguments: ['${return 1;}']\n", 33, "main.cwl:6: JavaScript")
        with open(f"{self.path}/out/report.txt", encoding="utf-8") as it:
            self.assertIn("JavaScript", it.read())

    def test_a_user_decides(self) -> None:
        self.write("main.cwl", TOOL + ENDS + "requirements: {DockerRequirement: {dockerPull: debian}}\n")
        self.assertEqual(33, self.start("main.cwl", "-o", "out")[0])
        self.assertEqual(0, self.start("main.cwl", "-o", "out", "--force-docker-as-hint")[0])

    def test_wrong_words(self) -> None:
        self.assertEqual(3, self.start("main.cwl")[0])
        self.assertEqual(3, self.start("main.cwl", "-o", "out", "--colour")[0])
        self.assertEqual(0, self.start("--help")[0])

    def test_no_file(self) -> None:
        status, _, said = self.start("absent.cwl", "-o", "out")
        self.assertEqual((1, True), (status, "absent.cwl" in said))

    def test_urls(self) -> None:
        self.write("main.cwl", TOOL + ENDS)
        self.assertEqual(0, self.start(f"file://{self.path}/main.cwl", "-o", "out")[0])
        for words in (("https://example.org/main.cwl",), ("main.cwl", "https://example.org/job.yml")):
            status, _, said = self.start(*words, "-o", "out")
            self.assertEqual((1, True), (status, "nothing is fetched" in said))

    def test_a_bomb(self) -> None:
        lines = ["a0: &a0 [x, x, x, x, x, x, x, x, x]"]
        lines += [f"a{at}: &a{at} [{', '.join([f'*a{at - 1}'] * 9)}]" for at in range(1, 60)]
        self.fails("\n".join(lines), 1, "aliases")

    def test_what_is_no_document(self) -> None:
        self.write("one.yml", "a:\n  $import: two.yml\n")
        self.write("two.yml", "$import: one.yml\n")
        rows = {
            "a tab": (TOOL + "inputs:\n\ta: int\noutputs: []\n", "main.cwl:5: there is a tab"),
            "two documents": (TOOL + ENDS + "---\n" + TOOL + ENDS, "main.cwl:6: a second YAML document"),
            "a key twice": (TOOL + ENDS + "baseCommand: cat\n", "main.cwl:6: the key 'baseCommand' stands twice in one object; it was on line 3"),
            "a key twice in JSON": ('{"class": "Workflow",\n "inputs": [],\n "class": "CommandLineTool"}', "main.cwl:3: the key 'class' stands twice"),
            "a circle": (TOOL + "inputs: {$import: one.yml}\noutputs: []\n", "one.yml imports itself"),
            "a URL": (TOOL + "inputs:\n  $import: https://example.org/x.yml\noutputs: []\n", "main.cwl:5: https://example.org/x.yml is no file on this machine, and nothing is fetched"),
        }
        for name, (text, words) in rows.items():
            with self.subTest(name):
                self.fails(text, 1, words)

    def test_twenty_megabytes(self) -> None:
        self.fails(TOOL + ENDS + "doc: |\n" + "  line\n" * 3_000_000, 1, "bytes")
        self.fails('{"doc": [' + '"x",' * 5_000_000 + '"x"]}', 1, "bytes")

    def test_as_much_as_is_read(self) -> None:
        self.fails("[" + "x," * 1_900_000 + "x]", 1, "more than")
        self.fails('{"a": [' + "1," * 1_900_000 + "1]}", 1, "more than")
        self.fails("[" * 1_900_000, 1, "nest")
        self.fails('{"a": ' * 500_000, 1, "nest")

    def test_deep_json(self) -> None:
        self.fails('{"a": ' * 20_000 + "1" + "}" * 20_000, 1, "nest")

    def test_long_numbers(self) -> None:
        self.fails(TOOL + "outputs: []\ninputs: {a: {type: int, default: " + "9" * 100_000 + "}}\n", 1, "digits")

    def test_a_folder_that_cant_be_written(self) -> None:
        self.write("main.cwl", TOOL + ENDS)
        self.write("taken", "")
        status, _, said = self.start("main.cwl", "-o", "taken/out")
        self.assertEqual((1, True), (status, "can't be written" in said))

    def runner(self) -> None:
        if not program():
            self.skipTest("no program deparohi")

    def test_cwl_runner(self) -> None:
        self.runner()
        text = "cwlVersion: v1.0\nclass: CommandLineTool\nbaseCommand: [echo, -n]\ninputs: {a: {type: string, inputBinding: {}}}\noutputs: {o: stdout}\nstdout: my out.txt\n"
        self.write("main.cwl", text)
        self.write("job.yml", "a: hello\n")
        status, lines, said = self.start("--outdir=" + self.path + "/res", "--quiet", "main.cwl", "job.yml", name="cwl-runner")
        self.assertEqual(0, status, said)
        out = json.loads("\n".join(lines))["o"]
        self.assertEqual((f"{self.path}/res/my out.txt", "sha1$aaf4c61ddcc5e8a2dabede0f3b482cd9aea9434d"), (out["path"], out["checksum"]))
        self.assertFalse([it for it in os.listdir(self.path) if it.startswith("cwl-runner")])

    def test_cwl_runner_tells_unsupported_from_wrong(self) -> None:
        self.runner()
        rows = {
            "unsupported": (33, TOOL + ENDS + "arguments: ['${return 1;}']\n"),
            "wrong": (1, TOOL + "inputs: []\n"),
            "no yaml": (1, "a: [\n"),
            "a failure": (1, "cwlVersion: v1.2\nclass: CommandLineTool\nbaseCommand: 'false'\n" + ENDS),
            "a wrong link": (1, "cwlVersion: v1.2\nclass: Workflow\ninputs: []\noutputs: {o: {type: int, outputSource: s/o}}\nsteps: []\n"),
        }
        for name, (wanted, text) in rows.items():
            with self.subTest(name):
                self.write("main.cwl", text)
                self.assertEqual(wanted, self.start("main.cwl", name="cwl-runner")[0])
