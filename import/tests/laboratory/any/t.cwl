cwlVersion: v1.2
class: CommandLineTool
baseCommand: echo
inputs: {x: {type: double, inputBinding: {}}}
stdout: $(inputs.x).o
outputs: {o: stdout}
