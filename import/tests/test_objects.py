"""Inputs, fields and variables that are called as something that each object of JavaScript has, in a job as node does it."""

import glob
import json
import os
import subprocess
import unittest
from typing import Any, Dict, Tuple

from .helping import TOOL, InFolder

from deparohi_import import node
from deparohi_import.plans import NODE, PROGRAM_FILE

ASKED = "requirements:\n  InlineJavascriptRequirement: {}\n"


@unittest.skipUnless(node.is_there(), "no node")
class Objects(InFolder):
    def done(self, text: str, inputs: str) -> Tuple[Dict[str, Any], str]:
        """Does the job of a tool as node does it, and returns its outputs and what its command printed."""
        self.imported(text, inputs)
        plan, room = glob.glob(os.path.join(self.path, "out", "in-job", "*", "plan.json"))[0], os.path.join(self.path, "room")
        os.mkdir(room)
        words = [*NODE, os.path.join(self.path, "out", PROGRAM_FILE), plan, "=" + json.dumps(self.read("inputs.json"))]
        ended = subprocess.run(words, cwd=room, stdin=subprocess.DEVNULL, stdout=subprocess.PIPE, stderr=subprocess.PIPE, universal_newlines=True)
        self.assertEqual(0, ended.returncode, ended.stderr)
        with open(os.path.join(room, "cwl.output.json"), encoding="utf-8") as made, open(os.path.join(room, "cwl.stdout"), encoding="utf-8") as it:
            return json.load(made), it.read()

    def test_inputs_and_variables(self) -> None:
        text = "cwlVersion: v1.2\nclass: CommandLineTool\nbaseCommand: [sh, -c, 'echo \"$@\"; env | grep -e ^__proto__= -e ^constructor= | sort', sh]\n" + ASKED
        text += "  EnvVarRequirement: {envDef: {__proto__: '$(inputs.valueOf + 1)', constructor: $(inputs.constructor)}}\n"
        text += "inputs: {constructor: string, __proto__: int, toString: 'int?', valueOf: string}\noutputs: {o: stdout}\n"
        text += "arguments: ['$(inputs.constructor + 1)', '$(inputs[\"__proto__\"] + 1)', '$(String(inputs.toString === null))', $(inputs.valueOf), $(runtime.ram)]\n"
        self.assertEqual("a1 3 true v 256\n__proto__=v1\nconstructor=a\n", self.done(text, "constructor: a\n__proto__: 2\nvalueOf: v\n")[1])

    def test_fields_of_records(self) -> None:
        record = "{type: record, fields: {constructor: 'string?', __proto__: 'string?', toString: 'int?'}}"
        text = TOOL + ASKED + f"inputs: {{r: {{type: {record}}}}}\narguments: ['$(JSON.stringify(inputs.r))']\n"
        text += f"outputs: {{s: stdout, o: {{type: {record}, outputBinding: {{outputEval: '${{return {{constructor: inputs.r.constructor}};}}'}}}}}}\n"
        made, printed = self.done(text, "r: {constructor: c}\n")
        self.assertEqual({"constructor": "c", "__proto__": None, "toString": None}, json.loads(printed))
        self.assertEqual({"constructor": "c", "__proto__": None, "toString": None}, made["o"])


if __name__ == "__main__":
    unittest.main()
