cwlVersion: v1.2
class: CommandLineTool
baseCommand: [wc, -l]
inputs: {f: File, g: string, name: string}
stdin: $(inputs.f.path)
stdout: $(inputs.name)_$(inputs.f.nameroot).n
outputs: {out: stdout}
