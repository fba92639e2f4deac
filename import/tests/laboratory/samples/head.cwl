cwlVersion: v1.2
class: CommandLineTool
requirements:
  SchemaDefRequirement: {types: [{$import: sample.yml}]}
  InlineJavascriptRequirement: {}
baseCommand: head
inputs:
  sample: sample.yml#sample
  n: {type: int, inputBinding: {prefix: -n}}
  name: string
  file: {type: File, inputBinding: {position: 3}}
  reference: File?
stdout: $(inputs.name).head
outputs: {out: stdout}
