"""What is left, with its line: nothing that would change a result is rewritten."""

import unittest

from .helping import TOOL, InFolder

ENDS = "inputs: {x: int}\noutputs: []\n"


class Left(InFolder):
    in_job = False

    def leaves(self, text: str, *wanted: str, **how) -> dict:
        made = self.imported(text, **how)
        self.assertEqual(sorted(wanted), sorted(self.left()))
        return made

    def test_javascript(self) -> None:
        for expression in ("${return 1;}", "$(inputs.x + 1)", "a$( inputs.x)", "$(inputs.x"):
            with self.subTest(expression):
                made = self.leaves(TOOL + ENDS + f'arguments:\n  - "{expression}"\n', "JavaScript 7")
                self.assertEqual([expression], made["arguments"])

    def test_references_are_taken(self) -> None:
        self.leaves(TOOL + "inputs: {x: Any}\noutputs: []\narguments: ['$(inputs.x.a[\"b c\"][0])', '$(runtime.cores)-$(runtime.outdir)', '$(inputs[''x''])', '$5 ${']\n".replace(", '$5 ${'", ", $5"))

    def test_a_backslash_beside_a_reference(self) -> None:
        self.leaves(TOOL + ENDS + "arguments: ['\\$(inputs.x)']\n", "backslash beside a reference 6")

    def test_names_of_the_runtime(self) -> None:
        self.leaves(TOOL + ENDS + "arguments: [$(runtime.ram)]\n", "runtime.ram 6")

    def test_paths_outside_of_commands(self) -> None:
        outputs = "inputs: {f: File}\noutputs:\n  o:\n    type: string\n    outputBinding: {glob: x, outputEval: '$(inputs.f.path)'}\n"
        self.leaves(TOOL + outputs, "path outside a command 8")

    def test_processes_without_a_command(self) -> None:
        self.leaves("cwlVersion: v1.2\nclass: ExpressionTool\ninputs: []\noutputs: []\nexpression: ${}\n", "ExpressionTool 2")
        self.leaves("cwlVersion: v1.2\nclass: Operation\ninputs: []\noutputs: []\n", "Operation 2")

    def test_types(self) -> None:
        self.leaves(TOOL + "outputs: []\ninputs:\n  a: [float, string]\n  b: double[]\n  c:\n    type:\n      type: record\n      fields: {}\n", "float 6", "record 9")

    def test_values(self) -> None:
        self.leaves(TOOL + "outputs: []\ninputs: {a: Any, b: Any, f: File}\n", "float 1", "large number 2", "remote file 3", inputs="a: [1.5]\nb: 99999999999999999999\nf: {class: File, location: 'http://example.org/x'}\n")

    def test_requirements_stay_requirements(self) -> None:
        rows = {"DockerRequirement": "{dockerPull: debian}", "SoftwareRequirement": "{packages: {}}", "InitialWorkDirRequirement": "{listing: [$(inputs.x)]}", "ToolTimeLimit": "{timelimit: 5}", "cwltool:CUDARequirement": "{}"}
        for name, fields in rows.items():
            with self.subTest(name):
                made = self.leaves(TOOL + ENDS + f"requirements:\n  {name}: {fields}\n", f"{name} 7")
                self.assertEqual([name], [it["class"] for it in made["requirements"]])

    def test_the_user_decides_on_one_requirement(self) -> None:
        made = self.leaves(TOOL + ENDS + "requirements:\n  DockerRequirement: {dockerPull: debian}\n", forced=("DockerRequirement",))
        self.assertEqual(("DockerRequirement", False), (made["hints"][0]["class"], "requirements" in made))

    def test_hints_that_would_change_a_result(self) -> None:
        made = self.leaves(TOOL + ENDS + "hints:\n  InitialWorkDirRequirement: {listing: [$(inputs.x)]}\n", "InitialWorkDirRequirement 7")
        self.assertEqual("InitialWorkDirRequirement", made["requirements"][0]["class"])

    def test_cores_that_were_asked_for(self) -> None:
        self.leaves(TOOL + ENDS + "arguments: [$(runtime.cores)]\nhints:\n  ResourceRequirement: {coresMin: 4}\n", "ResourceRequirement 8")

    def test_a_requirement_comes_before_a_hint_further_in(self) -> None:
        tool = "{class: CommandLineTool, baseCommand: 'true', inputs: [], outputs: [], hints: {DockerRequirement: {dockerPull: a}}}"
        text = "cwlVersion: v1.2\nclass: Workflow\nrequirements:\n  DockerRequirement: {dockerPull: b}\ninputs: []\noutputs: []\n"
        self.leaves(text + f"steps: {{s: {{in: {{}}, out: [], run: {tool}}}}}\n", "DockerRequirement 4")

    def test_expressions_where_the_runner_takes_none(self) -> None:
        self.leaves(TOOL + "outputs: []\ninputs:\n  a:\n    type: int\n    inputBinding:\n      position: $(self)\n", "expression in position 9")
        self.leaves(TOOL + "outputs: []\ninputs:\n  a:\n    type: File\n    secondaryFiles: $(self.basename + inputs.x).idx\n", "expression in secondaryFiles 8")
        workflow = "cwlVersion: v1.2\nclass: Workflow\noutputs: []\nsteps: []\ninputs:\n  a:\n    type: File\n    secondaryFiles: ${return self.basename + 1;}\n"
        self.leaves(workflow, "expression in secondaryFiles 8")

    def test_fields_that_are_missing_unknown_or_twice_are_wrong(self) -> None:
        self.leaves(TOOL + "inputs: []\n", "outputs missing 1")
        self.leaves(TOOL + ENDS + "colour: red\n", "unknown field 6")
        self.leaves(TOOL + "inputs: [{id: a, type: int}, {id: a, type: int}]\noutputs: []\n", "repeated name 4")
        self.assertEqual(1, self.findings.status())

    def test_nothing_is_lost(self) -> None:
        self.leaves(TOOL + ENDS + "requirements: [{}, WorkReuse]\nhints: x\n", "requirements 6", "hints 7")
        self.leaves(TOOL + "outputs: []\ninputs: {'#a/x': int, '#b/x': int}\n", "repeated name 5")

    def test_another_version(self) -> None:
        from deparohi_import.versions import UnknownVersion

        with self.assertRaises(UnknownVersion):
            self.imported("cwlVersion: v3\nclass: CommandLineTool\n" + ENDS)


if __name__ == "__main__":
    unittest.main()
