cwlVersion: v1.2
class: CommandLineTool
baseCommand: cat
inputs: {f: {type: File, inputBinding: {}}, name: string}
stdout: $(inputs.name)
outputs: {out: stdout}
