cwlVersion: v1.0
class: CommandLineTool
requirements: {InlineJavascriptRequirement: {}}
baseCommand: [echo, -n]
inputs:
  a: {type: string, inputBinding: {position: 1}}
  b: {type: float, inputBinding: {position: 2}}
stdout: t
outputs: {text: {type: string, outputBinding: {glob: t, loadContents: true, outputEval: "$(self[0].contents)"}}}
