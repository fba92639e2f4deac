"""The command `deparohi` on documents as laboratories have them: what cwltool gives, and words as they should be.

cwltool gave the outputs in `laboratory/expected.json`, by `laboratory/expect`.
"""

import json
import os
import shutil
import subprocess
import unittest
from typing import Any, Dict, List

from .helping import HERE, TOOL, TOP, InFolder, program
from .plain_values import cases, files_of, plain_texts, tools

from deparohi_import import node

DOCUMENTS = os.path.join(HERE, "tests", "laboratory")
FRONT = os.path.join(TOP, "front", "deparohi")
ASKED = "requirements:\n  InlineJavascriptRequirement: {}\n"
# Stands for an engine: it keeps its words, drops its own options and runs the command.
ENGINE = os.path.join(DOCUMENTS, "engine")


@unittest.skipUnless(node.is_there() and program(), "no node, or no program deparohi")
class Laboratory(InFolder):
    def run_front(self, *words: str, **variables: str) -> "subprocess.CompletedProcess[str]":
        room = {**os.environ, "DEPAROHI_PROGRAM": os.path.abspath(str(program())), **variables}
        return subprocess.run([FRONT, *words], cwd=self.path, env=room, stdin=subprocess.DEVNULL, stdout=subprocess.PIPE, stderr=subprocess.PIPE, universal_newlines=True)

    def given(self, text: str, inputs: str = "", *words: str, **variables: str) -> Dict[str, Any]:
        """Runs a text, and returns its output object with the texts of its files."""
        self.write("main.cwl", text)
        files = ["main.cwl"]
        if inputs:
            self.write("job.yml", inputs)
            files.append("job.yml")
        ended = self.run_front("run", "--outdir", "results", *words, *files, **variables)
        self.assertEqual(0, ended.returncode, ended.stderr)
        return plain_texts(json.loads(ended.stdout))

    def refused(self, text: str, feature: str, *words: str) -> str:
        self.write("main.cwl", text)
        ended = self.run_front("run", *words, "main.cwl")
        self.assertEqual(33, ended.returncode, ended.stdout + ended.stderr)
        self.assertIn(f": {feature}: ", ended.stderr)
        return ended.stderr

    def test_documents_give_what_cwltool_gives(self) -> None:
        with open(os.path.join(DOCUMENTS, "expected.json"), encoding="utf-8") as it:
            expected = json.load(it)
        self.assertEqual(cases(), sorted(expected))
        found = f"{tools(os.path.join(self.path, 'bin'))}:{os.environ['PATH']}"
        for name, outputs in expected.items():
            with self.subTest(name):
                ended = self.run_front("run", "--explain", "--work", f"work-{name}", "--outdir", name, *files_of(name), PATH=found)
                self.assertEqual(0, ended.returncode, ended.stderr)
                made = plain_texts(json.loads(ended.stdout))
                # Text shows that 1 isn't 1.0.
                self.assertEqual(json.dumps(outputs, sort_keys=True), json.dumps(made, sort_keys=True))

    def test_a_thousand_files(self) -> None:
        names = [f"a_long_name_of_a_sample_of_a_study_in_a_year_{at:04d}.txt" for at in range(1000)]
        for it in names:
            self.write(it, "x")
        text = TOOL + ASKED + "inputs: {files: 'File[]'}\noutputs: {o: {type: int, outputBinding: {outputEval: '$(inputs.files.length + inputs.files[999].size)'}}}\n"
        self.assertEqual({"o": 1001}, self.given(text, "files:\n" + "".join(f"- {{class: File, path: {it}}}\n" for it in names)))

    def test_names_that_objects_have(self) -> None:
        text = TOOL + ASKED + "inputs: {constructor: string, __proto__: int, toString: 'int?'}\noutputs: {o: stdout}\n"
        text += "arguments: ['$(inputs.constructor + 1)', '$(inputs[\"__proto__\"] + 1)', '$(String(inputs.toString === null))']\n"
        self.assertEqual("a1 3 true\n", self.given(text, "constructor: a\n__proto__: 2\n")["o"]["text"])

    def test_the_order_of_inputs(self) -> None:
        library = "expressionLib: ['function keys(all) { return Object.keys(all); }', 'function own() { return Object.keys(inputs); }', 'function one(all) { return \"b\" in all ? all.b : 0; }']"
        text = TOOL + f"requirements: {{InlineJavascriptRequirement: {{{library}}}}}\ninputs: {{a: int, b: int}}\noutputs: {{o: stdout}}\n"
        self.assertEqual("2\n", self.given(text + "arguments: [$(one(inputs))]\n", "a: 1\nb: 2\n")["o"]["text"])
        for code in ("keys(inputs)", "own()"):
            self.write("main.cwl", text + f"arguments: [$({code})]\n")
            ended = self.run_front("run", "--explain", "main.cwl", "job.yml")
            self.assertEqual(1, ended.returncode, ended.stderr)
            self.assertIn("it goes through the names of all inputs", ended.stderr)
        for code in ("Object.keys(inputs)", "keys(JSON.stringify(inputs))"):
            self.refused(text + f"arguments: [$({code})]\n", "JavaScript")

    def test_fractions_in_words(self) -> None:
        text = TOOL + ASKED + "inputs: []\noutputs: {o: stdout}\narguments: [$(1/3), 'x$(1e-7)', $(1e21), $(2.5e3)]\n"
        self.assertEqual("0.3333333333333333 x1e-07 1e+21 2500\n", self.given(text)["o"]["text"])

    def test_a_container(self) -> None:
        text = TOOL + "requirements: {DockerRequirement: {dockerPull: some/image}, NetworkAccess: {networkAccess: false}}\ninputs: {f: {type: File, inputBinding: {}}}\noutputs: {o: stdout}\n"
        self.write("f.txt", "x")
        for engine in ("docker", "podman", "apptainer"):
            with self.subTest(engine):
                with open(ENGINE, encoding="utf-8") as it:
                    os.chmod(self.write(f"bin/{engine}", it.read().replace("/dev/null", f"{self.path}/words")), 0o755)
                made = self.given(text, "f: {class: File, path: f.txt}\n", "--container", engine, PATH=f"{self.path}/bin:{os.environ['PATH']}")
                self.assertTrue(made["o"]["text"].endswith("in/0/f.txt\n"))
                with open(f"{self.path}/words", encoding="utf-8") as it:
                    words = it.read().splitlines()
                self.assertEqual(self.engine_words(engine), [it.replace(self.path, "/here") for it in words])

    def engine_words(self, engine: str) -> List[str]:
        folder = "/here/cwl-work/j1"
        mounts = [f"{folder}/out:{folder}/out", f"{folder}/tmp:{folder}/tmp", f"{folder}/in:{folder}/in:ro"]
        command = ["echo", f"{folder}/in/0/f.txt"]
        variables = [f"HOME={folder}/out", f"TMPDIR={folder}/tmp"]
        if engine == "apptainer":
            bound = [word for it in mounts for word in ("--bind", it)]
            return ["exec", "--contain", "--cleanenv", "--no-home", *bound, "--pwd", f"{folder}/out", *(word for it in variables for word in ("--env", it)), "docker://some/image", *command]
        user = ["--user", f"{os.getuid()}:{os.getgid()}"] if engine == "docker" else ["--userns", "keep-id"]
        bound = [word for it in mounts for word in ("--volume", it)]
        return ["run", "--rm", "-i", *bound, "--workdir", f"{folder}/out", *user, "--network", "none", *(word for it in variables for word in ("--env", it)), "some/image", *command]

    def test_cores_ram_and_environment(self) -> None:
        text = "cwlVersion: v1.2\nclass: CommandLineTool\nbaseCommand: [sh, -c, 'echo \"$NAMED\" \"$@\"', sh]\nrequirements: {ResourceRequirement: {coresMin: 2, coresMax: 6, ramMin: 100}}\n"
        text += "inputs: []\noutputs: {o: stdout}\narguments: [$(runtime.cores), $(runtime.ram)]\n"
        self.assertEqual(" 2 100\n", self.given(text)["o"]["text"])
        made = self.given(text, "", "--cores", "8", "--ram=4000", "--environment", "NAMED", NAMED="it's $(1) \\")
        self.assertEqual("it's $(1) \\ 6 4000\n", made["o"]["text"])

    def test_a_time_limit(self) -> None:
        self.write("main.cwl", "cwlVersion: v1.2\nclass: CommandLineTool\nbaseCommand: [sleep, '30']\nrequirements: {ToolTimeLimit: {timelimit: 1}}\nsuccessCodes: [0, 1, 124, 137]\ninputs: []\noutputs: []\n")
        ended = self.run_front("run", "--explain", "main.cwl")
        self.assertEqual(1, ended.returncode, ended.stderr)
        self.assertIn("after 1 seconds, its time limit, the command was ended: sleep 30", ended.stderr)

    def test_what_is_refused(self) -> None:
        asked = TOOL + "inputs: {f: 'File?', n: 'int?'}\noutputs: []\n" + ASKED
        self.refused(asked + "arguments: ['$(JSON.stringify(inputs))']\n", "JavaScript")
        self.refused(asked + "arguments: ['$(String(inputs.f.checksum))']\n", "JavaScript")
        self.refused(asked + "  InitialWorkDirRequirement: {listing: [{entryname: /abs, entry: x}]}\n", "absolute entryname")
        self.refused(asked + "  InplaceUpdateRequirement: {inplaceUpdate: true}\n", "InplaceUpdateRequirement")
        words = self.refused(asked + "  InitialWorkDirRequirement: {listing: [$(inputs.f)]}\n", "InitialWorkDirRequirement", "--leave-javascript", "--force-initial-workdir-as-hint")
        self.assertIn("main.cwl:8: ", words)

    def test_imports_outside_of_the_folder(self) -> None:
        self.write("secret.txt", "secret")
        self.write("inner/main.cwl", TOOL + "inputs: []\noutputs: {o: stdout}\narguments: [{$include: ../secret.txt}]\n")
        ended = self.run_front("run", "inner/main.cwl")
        self.assertEqual(1, ended.returncode)
        self.assertIn("--allow-outside takes it", ended.stderr)
        ended = self.run_front("run", "--allow-outside", "--outdir", "results", "inner/main.cwl")
        self.assertEqual("secret\n", plain_texts(json.loads(ended.stdout))["o"]["text"])

    def test_a_second_run_knows_each_job(self) -> None:
        for name in ("flow", "folder"):
            words = ["run", "--verbose", "--cache", "cache", "--work", name, f"{DOCUMENTS}/{name}.cwl", f"{DOCUMENTS}/{name}.yml"]
            self.run_front(*words, "--outdir", f"first-{name}")
            shutil.rmtree(os.path.join(self.path, f"{name}-imported"))
            ended = self.run_front(*words, "--outdir", f"second-{name}", "--imported", f"another-{name}")
            self.assertEqual(0, ended.returncode, ended.stderr)
            # What is computed again costs less than its files.
            self.assertNotIn("nothing is recorded", ended.stderr)

    def test_one_sample_replaced_computes_what_hangs_on_it(self) -> None:
        asked = "requirements: {InlineJavascriptRequirement: {}}"
        each = f"{{class: CommandLineTool, {asked}, baseCommand: [sh, -c, 'sleep 0.5; cat \"$0\"'], inputs: {{f: File}}, arguments: ['$(inputs.f.path)'], stdout: $(inputs.f.nameroot).out, outputs: {{o: stdout}}}}"
        merge = f"{{class: CommandLineTool, {asked}, baseCommand: [sh, -c, 'sleep 0.5; cat \"$@\"', sh], inputs: {{fs: 'File[]'}}, arguments: ['$(inputs.fs.map(function (f) {{ return f.path; }}))'], stdout: all, outputs: {{o: stdout}}}}"
        text = "cwlVersion: v1.2\nclass: Workflow\nrequirements: {ScatterFeatureRequirement: {}}\ninputs: {fs: 'File[]'}\noutputs: {o: {type: File, outputSource: merge/o}}\n"
        text += f"steps:\n  each: {{scatter: f, in: {{f: fs}}, out: [o], run: {each}}}\n  merge: {{in: {{fs: each/o}}, out: [o], run: {merge}}}\n"
        self.write("main.cwl", text)
        self.write("job.yml", "fs: [{class: File, path: a.txt}, {class: File, path: b.txt}, {class: File, path: c.txt}]\n")
        for name in "abc":
            self.write(f"{name}.txt", name)
        for at, said in enumerate(("0 loaded, 4 computed, 0 not needed", "1 loaded, 0 computed, 3 not needed", "2 loaded, 2 computed, 0 not needed")):
            if at == 2:
                self.write("b.txt", "another")
            ended = self.run_front("run", "--explain", "--cache", "cache", "--work", f"work-{at}", "--outdir", f"out-{at}", "main.cwl", "job.yml")
            self.assertEqual(0, ended.returncode, ended.stderr)
            self.assertIn(f"4 jobs: {said}", ended.stderr)
        with open(os.path.join(self.path, "out-2", "all"), encoding="utf-8") as it:
            self.assertEqual("aanotherc", it.read())

    def test_json_goes_to_the_program(self) -> None:
        self.write("main.json", json.dumps({"cwlVersion": "v1.2", "class": "CommandLineTool", "baseCommand": "echo", "inputs": [], "outputs": {"o": "stdout"}}))
        ended = self.run_front("run", "--quiet", "--outdir", "results", "main.json", PATH="/nowhere-python:/usr/bin:/bin")
        self.assertEqual(0, ended.returncode, ended.stderr)
        self.assertFalse(os.path.exists(os.path.join(self.path, "cwl-work-imported")))
        self.assertIn("--container <ENGINE>", self.run_front("run", "--help").stdout)
        self.assertEqual(0, self.run_front("demo").returncode)

    def test_a_plan(self) -> None:
        ended = self.run_front("plan", f"{DOCUMENTS}/folder.cwl", f"{DOCUMENTS}/folder.yml")
        self.assertEqual("cwl-plan 1", ended.stdout.splitlines()[0])


if __name__ == "__main__":
    unittest.main()
