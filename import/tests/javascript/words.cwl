cwlVersion: v1.2
class: CommandLineTool
doc: JavaScript before the command and after it, with a library, beside Files.
requirements:
  InlineJavascriptRequirement:
    expressionLib:
      - "function twice(n) { return 2 * n; }"
      - "var greeting = 'it\\'s';"
baseCommand: [printf, "%s|"]
arguments:
  - $(twice(inputs.count))
  - "${ var found = []; for (var i = 0; i < inputs.count; i++) { found.push('n' + i); } return found; }"
  - valueFrom: "<$(greeting) $(inputs.count + 1) $(inputs.text.nameroot.toUpperCase())>"
    position: 3
inputs:
  count: {type: int, inputBinding: {position: 1, valueFrom: "$(self - 1)"}}
  absent: {type: int?, inputBinding: {position: 2, valueFrom: "$(self === null ? 'null' : self)"}}
  text: {type: File, loadContents: true}
stdout: $(inputs.text.nameroot + '.' + inputs.count)
outputs:
  words: stdout
  lines:
    type: int
    outputBinding: {glob: "$('*.' + inputs.count)", loadContents: true, outputEval: "$(self[0].contents.split('|').length + inputs.text.contents.length)"}
  found: {type: int, outputBinding: {glob: "*", outputEval: "${ return self.length; }"}}
  names: {type: "string[]", outputBinding: {glob: "*", outputEval: "$([self[0].basename, self[0].nameext])"}}
  plain: {type: string, outputBinding: {outputEval: $(inputs.text.basename)}}
