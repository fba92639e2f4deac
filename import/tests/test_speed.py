"""What a document costs grows with its length: twice as many steps take about twice the processor time."""

import time
import unittest

from .helping import InFolder

RATIO = 3.5


class Speed(InFolder):
    def seconds(self, text: str) -> float:
        begun = time.process_time()
        self.imported(text)
        return time.process_time() - begun

    def grows(self, made) -> None:
        least = min(self.seconds(made(600)) for _ in range(2))
        self.assertLess(self.seconds(made(2400)) / least, 4 * RATIO)

    def test_steps(self) -> None:
        tool = "{class: CommandLineTool, baseCommand: x, inputs: {a: int}, outputs: {o: stdout}}"
        head = "cwlVersion: v1.2\nclass: Workflow\ninputs: {a: int}\noutputs: []\nsteps:\n"
        self.grows(lambda count: head + "".join(f"  - {{id: s{at}, in: {{a: a}}, out: [o], run: {tool}}}\n" for at in range(count)))

    def test_links(self) -> None:
        tool = "{class: CommandLineTool, baseCommand: x, inputs: {a: int}, outputs: {o: stdout}}"
        head = f"cwlVersion: v1.2\n$graph:\n- {{id: t, {tool[1:-1]}}}\n- class: Workflow\n  id: main\n  inputs: {{a: int}}\n  outputs: []\n  steps:\n"
        self.grows(lambda count: head + "".join(f"    s{at}: {{in: {{a: '#main/s{max(at - 1, 0)}/o'}}, out: [o], run: '#t'}}\n" for at in range(count)))

    def test_packed_tools(self) -> None:
        tool = "class: CommandLineTool, baseCommand: x, inputs: {a: int}, outputs: {o: stdout}"
        head = "cwlVersion: v1.2\n$graph:\n- class: Workflow\n  id: main\n  inputs: {a: int}\n  outputs: []\n  steps:\n"
        self.grows(lambda count: head + "".join(f"    s{at}: {{in: {{a: a}}, out: [o], run: '#t{at}'}}\n" for at in range(count)) + "".join(f"- {{id: t{at}, {tool}}}\n" for at in range(count)))

    def test_javascript(self) -> None:
        head = "cwlVersion: v1.2\nclass: CommandLineTool\nrequirements: {InlineJavascriptRequirement: {}}\nbaseCommand: x\ninputs: {a: int}\n"
        output = "{type: int, outputBinding: {glob: x, outputEval: '$(1 + 1)'}}"
        self.grows(lambda count: head + "arguments: [" + "'$(1 + 1)', " * count + "x]\noutputs:\n" + "".join(f"  o{at}: {output}\n" for at in range(count)))
        self.grows(lambda count: head + "outputs: []\narguments: ['" + "$(a+1)" * 10 * count + "']\n")

    def test_steps_with_javascript(self) -> None:
        tool = "{class: CommandLineTool, baseCommand: x, inputs: {a: int}, outputs: {o: stdout}}"
        head = "cwlVersion: v1.2\nclass: Workflow\nrequirements: {InlineJavascriptRequirement: {}}\ninputs: {a: int}\noutputs: []\nsteps:\n"
        self.grows(lambda count: head + "".join(f"  - {{id: s{at}, in: {{a: a}}, when: '$(inputs.a + 1)', out: [o], run: {tool}}}\n" for at in range(count)))

    def test_types(self) -> None:
        self.grows(lambda count: "cwlVersion: v1.2\nclass: CommandLineTool\nbaseCommand: x\noutputs: []\ninputs:\n  a: [" + ", ".join("{type: array, items: int}" for _ in range(5 * count)) + "]\n")


if __name__ == "__main__":
    unittest.main()
