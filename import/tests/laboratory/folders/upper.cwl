cwlVersion: v1.2
class: CommandLineTool
baseCommand: [tr, a-z, A-Z]
stdin: $(inputs.file.path)
stdout: $(inputs.file.nameroot).UP$(inputs.file.nameext)
inputs: {file: File}
outputs: {out: stdout}
