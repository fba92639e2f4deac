cwlVersion: v1.2
class: CommandLineTool
baseCommand: echo
inputs: {value: {type: [double, string], inputBinding: {position: 1}}, other: {type: ["null", float, string], inputBinding: {position: 2}}}
stdout: union.txt
outputs: {out: stdout}
