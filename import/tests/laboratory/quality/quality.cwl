cwlVersion: v1.2
class: CommandLineTool
requirements: {InlineJavascriptRequirement: {}, ResourceRequirement: {coresMin: 1, coresMax: 1}}
baseCommand: [fastp, --quality]
inputs:
  reads: {type: File, inputBinding: {position: 2}}
  kind: {type: string, inputBinding: {position: 1}}
  label: {type: string, inputBinding: {position: 0, prefix: --label}}
stdout: "$(inputs.reads.nameroot)_$(inputs.kind).txt"
outputs: {txt: stdout}
