"""JavaScript: what node evaluates gives what cwltool gives, and what may give something else is left.

The documents in `javascript` are run where the program and node are there; cwltool gave the expected outputs.
"""

import json
import os
import subprocess
import unittest

from .helping import HERE, TOOL, InFolder, program
from .test_examples import plain

from deparohi_import import node
from deparohi_import.choices import Choices
from deparohi_import.expressions import Part, parts_of
from deparohi_import.fault import ImportFault
from deparohi_import.findings import REWRITTEN
from deparohi_import.folder import Folder
from deparohi_import.importing import Import

DOCUMENTS = os.path.join(HERE, "tests", "javascript")
ASKED = "requirements: {InlineJavascriptRequirement: {}}\n"
HEAD = "cwlVersion: v1.2\nclass: Workflow\n" + ASKED
ENDS = "inputs: {x: int, f: File, d: Directory}\noutputs: []\n"
RUN = "{class: CommandLineTool, baseCommand: x, inputs: {a: int?, f: File?}, outputs: {o: stdout}}"


@unittest.skipUnless(node.is_there(), "no node")
class Evaluated(InFolder):
    def test_documents_are_taken(self) -> None:
        for name in ("words", "steps", "packed"):
            with self.subTest(name):
                self.assertEqual(0, self.document(name)[1].status())

    def document(self, name: str):
        folder = Folder(os.path.join(self.path, name))
        one = Import(folder, set())
        written = one.document(os.path.join(DOCUMENTS, f"{name}.cwl"))
        one.inputs(os.path.join(DOCUMENTS, f"{name}.yml"))
        folder.write("")
        return os.path.join(folder.path, written), one.findings

    @unittest.skipUnless(program(), "no program deparohi")
    def test_their_outputs_are_those_of_cwltool(self) -> None:
        with open(os.path.join(DOCUMENTS, "expected.json"), encoding="utf-8") as it:
            expected = json.load(it)
        for name, outputs in expected.items():
            with self.subTest(name):
                document = self.document(name)[0]
                room = os.path.dirname(document)
                words = [program(), "run", "--explain", "--work", f"{room}/work", "--outdir", f"{room}/results", document, f"{room}/inputs.json"]
                ended = subprocess.run(words, stdout=subprocess.PIPE, stderr=subprocess.PIPE, universal_newlines=True)
                self.assertEqual(0, ended.returncode, ended.stderr)
                self.assertEqual(outputs, plain(json.loads(ended.stdout)))

    def test_the_forms_that_stand_for_it(self) -> None:
        output = "outputs: {o: {type: int, outputBinding: {glob: x, loadContents: true, outputEval: '$(self[0].contents.length + 1)'}}}\n"
        made = self.imported(TOOL + ASKED + "inputs: {a: {type: int, inputBinding: {}}}\narguments: ['$(inputs.a + 1)']\n" + output)
        self.assertEqual(["javascript-before", "command", "javascript-after"], [it["id"] for it in made["steps"]])
        self.assertEqual([], self.left())
        self.assertEqual(["JavaScript 6", "JavaScript 7"], sorted(f"{it.feature} {it.line}" for it in self.findings.of(REWRITTEN)))
        made = self.imported("cwlVersion: v1.2\nclass: ExpressionTool\n" + ASKED + "inputs: []\noutputs: {o: int}\nexpression: '${return {o: 1};}'\n")
        self.assertEqual(("CommandLineTool", "node"), (made["class"], made["baseCommand"][0]))
        made = self.imported(HEAD + f"inputs: {{a: int}}\noutputs: []\nsteps: {{s: {{in: {{a: a}}, when: '$(inputs.a > 1)', out: [o], run: {RUN}}}}}\n")
        self.assertEqual((["s-javascript", "s"], "$(inputs.when_)"), ([it["id"] for it in made["steps"]], made["steps"][1]["when"]))

    def test_a_process_without_javascript_stays_as_it_is(self) -> None:
        made = self.imported(TOOL + ASKED + ENDS + "arguments: ['$(inputs.x)', '$(inputs.f.path)']\n")
        self.assertEqual(("CommandLineTool", []), (made["class"], self.findings.of(REWRITTEN)))

    def test_requirements_around_do_not_reach_it(self) -> None:
        text = HEAD.replace("{InlineJavascriptRequirement: {}}", "{InlineJavascriptRequirement: {}, ShellCommandRequirement: {}}")
        made = self.imported(text + "inputs: []\noutputs: []\nsteps: {s: {in: {}, out: [], run: {class: ExpressionTool, inputs: [], outputs: [], expression: '${return {};}'}}}\n")
        self.assertEqual("node", made["steps"]["s"]["run"]["baseCommand"][0])

    def test_copies_of_a_library_are_bounded(self) -> None:
        library = "x" * 100_000
        tools = "".join(f"  s{at}: {{in: {{}}, out: [], run: {{class: CommandLineTool, baseCommand: x, inputs: [], outputs: [], arguments: ['$(1 + {at})']}}}}\n" for at in range(200))
        with self.assertRaises(ImportFault):
            self.imported(HEAD.replace("{}}", f"{{expressionLib: ['{library}']}}}}") + "inputs: []\noutputs: []\nsteps:\n" + tools)


class Left(InFolder):
    in_job = False

    def leaves(self, text: str, *wanted: str) -> None:
        self.imported(text)
        self.assertEqual(sorted(wanted), sorted(self.left()))

    def test_what_may_give_another_value(self) -> None:
        for code in ("inputs.f.path + 1", "inputs", "inputs.f", "inputs['f'].size + 1", "inputs.d.listing.length + 1", "runtime.cores + 1", "globalThis.a", "inputs.f.contents + inputs.f.location"):
            with self.subTest(code):
                # A call makes JavaScript of what could be a reference.
                self.leaves(TOOL + ASKED + ENDS + f'arguments: ["$(String({code}))"]\n', "JavaScript 7")

    def test_contents_are_there_where_they_are_loaded(self) -> None:
        text = TOOL + ASKED + "inputs: {f: {type: File, LOADS}}\noutputs: {o: {type: int, outputBinding: {glob: x, SELF, outputEval: '$(self[0].contents.length + inputs.f.contents.length)'}}}\n"
        self.leaves(text.replace("LOADS", "loadContents: true").replace("SELF", "loadContents: false"), "JavaScript 6")
        self.leaves(text.replace("LOADS", "loadContents: false").replace("SELF", "loadContents: true"), "JavaScript 6")
        if node.is_there():
            self.leaves(text.replace("LOADS", "loadContents: true").replace("SELF", "loadContents: true"))

    def test_listings_that_are_surely_there(self) -> None:
        tool = "class: CommandLineTool\nbaseCommand: x\ninputs: {d: Directory}\noutputs: []\narguments: ['$(inputs.d.listing.length + 1)']\nrequirements: {InlineJavascriptRequirement: {}MORE}\n"
        deep = ", LoadListingRequirement: {loadListing: deep_listing}"
        self.leaves("cwlVersion: v1.2\n" + tool.replace("MORE", ""), "JavaScript 6")
        self.leaves("cwlVersion: v1.2\n" + tool.replace("Directory}", "{type: Directory, loadListing: no_listing}}").replace("MORE", deep), "JavaScript 6")
        if node.is_there():
            self.leaves("cwlVersion: v1.0\n" + tool.replace("MORE", ""))
            self.leaves("cwlVersion: v1.2\n" + tool.replace("MORE", deep))
        inner = "\n".join(" " * 6 + it for it in tool.replace("MORE", "").splitlines())
        outer = "class: Workflow\nrequirements: {LoadListingRequirement: {loadListing: no_listing}}\ninputs: {d: Directory}\noutputs: []\nsteps:\n  s:\n    in: {d: d}\n    out: []\n    run:\n"
        self.leaves("cwlVersion: v1.0\n" + outer + "      cwlVersion: v1.0\n" + inner + "\n", "JavaScript 16")

    def test_libraries_that_name_what_is_around(self) -> None:
        for library in ("function f() { return inputs.f.path; }", "var self = 1;"):
            self.leaves(TOOL + f"requirements: {{InlineJavascriptRequirement: {{expressionLib: ['{library}']}}}}\n" + ENDS + "arguments: ['$(1 + 1)']\n", "JavaScript 7")

    def test_places_that_are_not_evaluated(self) -> None:
        self.leaves(TOOL + ASKED + ENDS + "arguments: [{position: '$(1 + 1)', valueFrom: x}]\n", "expression in position 7")
        self.leaves(TOOL + ASKED + "inputs: []\noutputs:\n  o: {type: File, outputBinding: {glob: x, outputEval: '$(self[0] || null)'}}\n", "JavaScript 7")
        self.leaves(TOOL + ASKED + ENDS + "arguments: ['a\\b$(1 + 1)']\n", "JavaScript 7")

    def test_javascript_that_is_not_asked_for(self) -> None:
        self.leaves(TOOL + ENDS + "arguments: ['$(1 + 1)']\n", "JavaScript 6")
        self.leaves(TOOL + "hints: {InlineJavascriptRequirement: {}}\n" + ENDS + "arguments: ['$(1 + 1)']\n", "JavaScript 7")
        self.leaves("cwlVersion: v1.2\nclass: ExpressionTool\ninputs: []\noutputs: []\nexpression: '${return {};}'\n", "ExpressionTool 2")

    def test_an_option_leaves_it(self) -> None:
        one = Import(Folder(os.path.join(self.path, "out")), set(), Choices(evaluates=False))
        one.document(self.write("main.cwl", TOOL + ASKED + ENDS + "arguments: ['$(1 + 1)']\n"))
        self.assertEqual(33, one.findings.status())

    def test_picks_of_one_link(self) -> None:
        step = f"inputs: {{a: int, l: 'int[]'}}\nsteps: {{s: {{in: {{a: a}}, WHEN out: [o], run: {RUN}}}}}\noutputs:\n  o: {{type: Any, outputSource: s/o, pickValue: all_non_null}}\n"
        self.leaves(HEAD + step.replace("WHEN", "when: '$(inputs.a)',"), "pickValue of one link 7")
        self.leaves(HEAD + step.replace("WHEN", "when: '$(inputs.a)', scatter: a,").replace("a: a", "a: l"))
        self.leaves(HEAD + step.replace("WHEN", "").replace("s/o", "a"), "pickValue of one link 7")
        self.leaves(HEAD + step.replace("WHEN", "").replace("s/o", "l"))


class Parts(unittest.TestCase):
    def test_texts_are_taken_apart(self) -> None:
        code, text = (lambda it: Part(True, it)), (lambda it: Part(False, it))
        rows = {
            " $(a) ": [code("(a)")],
            "x$(f(')'))y${return '}';}": [text("x"), code("(f(')'))"), text("y"), code("{return '}';}")],
            "$$(1)$": [text("$"), code("(1)"), text("$")],
            '$("\\")")': [code('("\\")")')],
            "${ s.split(/\\r?\\n/) }": [code("{ s.split(/\\r?\\n/) }")],
            "$(a": None,
            "\\$(a)": None,
        }
        for it, wanted in rows.items():
            self.assertEqual(wanted, parts_of(it), it)

    def test_as_cwl_utils_does(self) -> None:
        try:
            from cwl_utils.expression import scanner
        except ImportError:
            self.skipTest("no cwl_utils")
        for it in ("a$(b(c)d)e", "${a{b}'}'c}", '$(a")"b)', "$()", "${}", "$x$(1)", "$(a ${b} c)", "${a $(b} c)", "$('\\'' + \")\")x"):
            start, end = scanner(it)
            self.assertEqual(it[start + 1 : end], next(part.text for part in parts_of(it) if part.is_code), it)


if __name__ == "__main__":
    unittest.main()
