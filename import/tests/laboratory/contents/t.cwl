cwlVersion: v1.2
class: CommandLineTool
baseCommand: [grep, -c]
successCodes: [0, 1]
inputs: {w: {type: string, inputBinding: {position: 1}}, f: {type: File, inputBinding: {position: 2}}, n: int}
stdout: $(inputs.f.nameroot)_$(inputs.w)_$(inputs.n).n
outputs: {out: stdout}
