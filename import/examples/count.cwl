cwlVersion: v1.2
class: CommandLineTool
requirements:
  InlineJavascriptRequirement:
    expressionLib: ["function lower(text) { return text.toLowerCase(); }"]
baseCommand: [grep, -c]
inputs:
  word: {type: string, inputBinding: {position: 1, valueFrom: $(lower(self))}}
  text: {type: File, inputBinding: {position: 2}}
outputs:
  count:
    type: int
    outputBinding: {glob: count.txt, loadContents: true, outputEval: "$(parseInt(self[0].contents))"}
stdout: count.txt
