cwlVersion: v1.2
class: CommandLineTool
baseCommand: echo
inputs: {words: {type: string, inputBinding: {position: 1}}, number: {type: double, inputBinding: {position: 2}}, name: {type: string, inputBinding: {position: 3}}}
stdout: $(inputs.words).txt
outputs: {out: stdout}
