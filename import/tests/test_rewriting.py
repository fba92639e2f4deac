"""What is rewritten since it changes nothing in what a tool does."""

import os
import unittest

from .helping import TOOL, Choices, InFolder

WORKFLOW = "cwlVersion: v1.2\nclass: Workflow\n"


class Rewriting(InFolder):
    def whole(self, text: str, **how):
        made = self.imported(text, **how)
        self.assertEqual([], self.left())
        return made

    def test_versions(self) -> None:
        for version in ("v1.0", "v1.1", "v1.2"):
            made = self.whole(f"cwlVersion: {version}\nclass: CommandLineTool\nbaseCommand: 'true'\ninputs: []\noutputs: []\n")
            self.assertEqual("v1.2", made["cwlVersion"])

    def test_names_of_extensions_that_became_standard(self) -> None:
        text = "cwlVersion: v1.0\nclass: CommandLineTool\n$namespaces: {cwltool: 'http://commonwl.org/cwltool#'}\nbaseCommand: 'true'\ninputs: []\noutputs: []\n"
        made = self.whole(text + "requirements:\n  cwltool:WorkReuse: {enableReuse: false}\n  'http://commonwl.org/cwltool#NetworkAccess': {networkAccess: true}\n")
        self.assertEqual([{"class": "WorkReuse", "enableReuse": False}], made["requirements"])
        self.assertEqual([{"class": "NetworkAccess", "networkAccess": True}], made["hints"])

    def test_a_packed_document(self) -> None:
        tool = "{class: CommandLineTool, id: '#cat', baseCommand: cat, inputs: [{id: '#cat/f', type: File, inputBinding: {position: 1}}], outputs: [{id: '#cat/o', type: stdout}]}"
        flow = "{class: Workflow, id: '#main', inputs: [{id: '#main/f', type: File}], outputs: [{id: '#main/o', type: File, outputSource: '#main/s/o'}], "
        flow += "steps: [{id: '#main/s', run: '#cat', in: [{id: '#main/s/f', source: '#main/f'}], out: ['#main/s/o']}]}"
        made = self.whole(f"cwlVersion: v1.2\n$graph: [{tool}, {flow}]\n")
        self.assertEqual("main", made["id"])
        self.assertEqual([{"id": "f", "type": "File"}], made["inputs"])
        self.assertEqual("s/o", made["outputs"][0]["outputSource"])
        self.assertEqual({"id": "s", "run": "main-cat.json", "in": [{"id": "f", "source": "f"}], "out": ["o"]}, made["steps"][0])
        self.assertEqual("f", self.read("main-cat.json")["inputs"][0]["id"])

    def test_a_packed_document_without_main(self) -> None:
        tool = "{class: CommandLineTool, id: t, baseCommand: 'true', inputs: [], outputs: []}"
        flow = "{class: Workflow, id: w, inputs: [], outputs: [], steps: [{id: s, run: '#t', in: [], out: []}]}"
        self.assertEqual("w", self.whole(f"cwlVersion: v1.2\n$graph: [{tool}, {flow}]\n")["id"])

    def test_types(self) -> None:
        rows = {
            "string": "string", "{type: string}": "string", "[string, [int, 'null']]": ["string", "int", "null"], "'cwl:File[]?'": "File[]?",
            "{type: array, items: [int, {type: long}]}": {"type": "array", "items": ["int", "long"]}, "[int, int]": "int",
            "{type: enum, name: '#main/e', symbols: ['#main/e/a', b]}": {"type": "enum", "name": "e", "symbols": ["a", "b"]},
        }
        for text, wanted in rows.items():
            with self.subTest(text):
                self.assertEqual(wanted, self.whole(TOOL + f"inputs: {{a: {{type: {text}}}}}\noutputs: []\n")["inputs"]["a"]["type"])

    def test_names_of_types(self) -> None:
        types = "requirements: [{class: SchemaDefRequirement, types: [{name: e, type: enum, symbols: [x]}, {name: l, type: array, items: e}]}]\n"
        made = self.whole(TOOL + types + "inputs: {a: 'e', b: 'l?', c: {type: '#e[]'}}\noutputs: []\n")
        enum = {"name": "e", "type": "enum", "symbols": ["x"]}
        self.assertEqual({"type": enum}, made["inputs"]["a"])
        self.assertEqual(["null", {"type": "array", "items": enum}], made["inputs"]["b"])
        self.assertEqual({"type": {"type": "array", "items": enum}}, made["inputs"]["c"])
        self.assertNotIn("requirements", made)

    def test_requirements_that_become_hints(self) -> None:
        for text in ("NetworkAccess: {networkAccess: true}", "LoadListingRequirement: {loadListing: no_listing}", "InplaceUpdateRequirement: {inplaceUpdate: false}", "ResourceRequirement: {ramMin: 4}"):
            with self.subTest(text):
                made = self.whole(TOOL + f"inputs: []\noutputs: []\nrequirements:\n  {text}\n")
                self.assertEqual([text.split(":")[0]], [it["class"] for it in made["hints"]])
                self.assertNotIn("requirements", made)

    def test_resources_become_hints_with_their_numbers(self) -> None:
        asked = {"class": "ResourceRequirement", "coresMin": 2, "ramMin": 0.5, "tmpdirMax": 100}
        for section in ("requirements", "hints"):
            with self.subTest(section):
                made = self.whole(TOOL + f"inputs: []\noutputs: []\n{section}: {{ResourceRequirement: {{coresMin: 2, ramMin: 0.5, tmpdirMax: 100}}}}\n")
                self.assertEqual([asked], made["hints"])

    def test_hints_say_who_takes_them(self) -> None:
        rows = {"ResourceRequirement: {coresMin: 2}": "the runner reserves nothing; a launcher is told", "DockerRequirement: {dockerPull: debian}": "the runner ignores this hint"}
        for text, wanted in rows.items():
            with self.subTest(text):
                self.whole(TOOL + f"inputs: []\noutputs: []\nhints:\n  {text}\n")
                self.assertEqual([(text.split(":")[0], wanted)], [(it.feature, it.words) for it in self.findings.all if it.kind == "ignored"])

    def test_resources_of_a_tool_that_node_does(self) -> None:
        text = TOOL + "inputs: {n: int}\noutputs: []\narguments: [$(runtime.cores)]\n"
        for section in ("requirements", "hints"):
            with self.subTest(section):
                made = self.whole(text + f"{section}: {{ResourceRequirement: {{coresMin: 2, ramMin: $(inputs.n)}}}}\n")
                self.assertEqual("node", made["baseCommand"][0])
                self.assertEqual([{"class": "ResourceRequirement", "coresMin": 2, "ramMin": "$(inputs.n)"}], made["hints"])

    def test_a_launcher_is_told_what_runtime_says(self) -> None:
        rows = {
            "{coresMin: 2, coresMax: 8}": {"coresMin": 8, "coresMax": 8, "ramMin": 700},
            "{coresMin: 12, ramMin: 900}": {"coresMin": 12, "ramMin": 900},
            "{coresMax: 3, ramMin: $(inputs.n)}": {"coresMin": 3, "coresMax": 3, "ramMin": "$(inputs.n)"},
            "": {"coresMin": 8, "ramMin": 700},
        }
        for text, wanted in rows.items():
            with self.subTest(text):
                hints = f"hints: {{ResourceRequirement: {text}}}\n" if text else ""
                made = self.whole(TOOL + "inputs: {n: int}\noutputs: []\narguments: [$(runtime.ram)]\n" + hints, choices=Choices(cores=8, ram=700))
                self.assertEqual([{"class": "ResourceRequirement", **wanted}], made["hints"])

    def test_resources_that_count_at_a_tool(self) -> None:
        tool = "{class: CommandLineTool, baseCommand: 'true', inputs: [], outputs: [], hints: {ResourceRequirement: {coresMin: 3}}}"
        step = f"{{in: {{}}, out: [], run: {tool}%s}}"
        text = WORKFLOW + "%s: {ResourceRequirement: {coresMin: 1, ramMin: 7}}\ninputs: []\noutputs: []\nsteps: {s: " + step + "}\n"
        rows = {
            ("hints", ""): {"coresMin": 3},
            ("requirements", ""): {"coresMin": 1, "ramMin": 7},
            ("requirements", ", requirements: {ResourceRequirement: {coresMin: 2}}"): {"coresMin": 2},
        }
        for given, wanted in rows.items():
            with self.subTest(given):
                made = self.whole(text % given)
                self.assertEqual([{"class": "ResourceRequirement", **wanted}], made["steps"]["s"]["run"]["hints"])
                self.assertEqual([], [it for it in (made, made["steps"]["s"]) if {"hints", "requirements"} & set(it)])

    def test_requirements_of_a_workflow_reach_its_tools(self) -> None:
        tool = "{class: CommandLineTool, cwlVersion: v1.2, baseCommand: 'true', inputs: [], outputs: []}"
        made = self.whole(WORKFLOW + f"requirements: {{NetworkAccess: {{networkAccess: true}}}}\ninputs: []\noutputs: []\nsteps: {{s: {{in: {{}}, out: [], run: {tool}}}}}\n")
        run = made["steps"]["s"]["run"]
        self.assertNotIn("requirements", made)
        self.assertNotIn("cwlVersion", run)
        self.assertEqual("NetworkAccess", run["hints"][0]["class"])

    def test_a_shell_whose_arguments_are_quoted(self) -> None:
        made = self.whole(TOOL + "inputs: []\noutputs: []\nrequirements: {ShellCommandRequirement: {}}\n")
        self.assertEqual(["/bin/sh", "-c", '"$0" "$@"', "echo"], made["baseCommand"])

    def test_a_shell_with_bare_words_gets_marks_in_the_order_of_the_command(self) -> None:
        text = TOOL + "requirements: {ShellCommandRequirement: {}}\noutputs: []\ninputs: {b: {type: int, inputBinding: {position: 1}}, a: {type: int, inputBinding: {position: 1}}}\n"
        made = self.whole(text + "arguments: [{valueFrom: '| wc', position: 2, shellQuote: false}, x]\n")
        places = {it["valueFrom"]: it["position"] for it in made["arguments"]}
        places.update({name: it["inputBinding"]["position"] for name, it in made["inputs"].items()})
        order = sorted(places, key=lambda it: places[it])
        self.assertEqual(["x", "a", "b", "--deparohi-bare-words--", "| wc", "--deparohi-quoted-words--"], order)
        self.assertEqual("/bin/sh", made["baseCommand"][3])

    def test_literals_become_files(self) -> None:
        text = TOOL + "inputs: {f: File, d: Directory}\noutputs: []\n"
        job = "f: {class: File, basename: a.txt, contents: 'one '}\nd: {class: Directory, basename: e, listing: [{class: File, basename: b, contents: two}]}\n"
        self.whole(text, inputs=job)
        made = self.read("inputs.json")
        with open(made["f"]["location"][len("file://"):], encoding="utf-8") as it:
            self.assertEqual("one ", it.read())
        with open(os.path.join(made["d"]["location"][len("file://"):], "b"), encoding="utf-8") as it:
            self.assertEqual("two", it.read())
        self.assertEqual(("a.txt", "e"), (made["f"]["basename"], made["d"]["basename"]))
        self.assertNotIn("contents", made["f"])

    def test_places_of_inputs_count_from_their_file(self) -> None:
        job = "a: {class: File, path: x y.txt}\nb: {class: File, location: x%20y.txt}\nc: {class: File, location: 'file:///d/z'}\n"
        self.whole(TOOL + "inputs: {a: File, b: File, c: File}\noutputs: []\n", inputs=job)
        made = self.read("inputs.json")
        self.assertEqual([f"file://{self.path}/x%20y.txt"] * 2 + ["file:///d/z"], [made[it]["location"] for it in "abc"])

    def test_empty_fields_are_as_absent_ones(self) -> None:
        made = self.whole(TOOL + "arguments: ~\ninputs: {a: {type: int, inputBinding: ~}}\noutputs: []\nstdout: ~\n")
        self.assertEqual({"a": {"type": "int"}}, made["inputs"])
        self.assertNotIn("stdout", made)

    def test_a_step_input_without_anything(self) -> None:
        tool = "{class: CommandLineTool, baseCommand: 'true', inputs: {x: 'int?'}, outputs: []}"
        made = self.whole(WORKFLOW + f"inputs: []\noutputs: []\nsteps: {{s: {{in: {{x: ~}}, out: [], run: {tool}}}}}\n")
        self.assertEqual({"x": {}}, made["steps"]["s"]["in"])


if __name__ == "__main__":
    unittest.main()
