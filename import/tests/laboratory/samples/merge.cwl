cwlVersion: v1.2
class: CommandLineTool
baseCommand: cat
inputs:
  files: {type: "File[]", inputBinding: {position: 1}}
  out_name: string
stdout: $(inputs.out_name).txt
outputs: {out: stdout}
