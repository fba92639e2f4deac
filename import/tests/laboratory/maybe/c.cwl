cwlVersion: v1.2
class: CommandLineTool
baseCommand: [cat]
inputs: {f: {type: File, inputBinding: {}}, n: int?}
stdout: $(inputs.f.basename).$(inputs.n)
outputs: {o: stdout}
