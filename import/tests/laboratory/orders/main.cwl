cwlVersion: v1.2
class: CommandLineTool
label: files come in the order of their URLs, a location may be relative, and JavaScript writes large numbers
requirements: {InlineJavascriptRequirement: {}, ShellCommandRequirement: {}}
arguments: [{shellQuote: false, valueFrom: "mkdir out; echo a > out/a.txt; echo 12345678901234567890 > n.json; for it in Z.txt '[b].txt' a=1.txt a1.txt a-1.txt a,1.txt ~1.txt; do echo x > \"$it\"; done"}]
inputs: {number: long}
outputs:
  names: {type: "string[]", outputBinding: {glob: "*.txt", outputEval: "$(self.map(function (it) { return it.basename; }))"}}
  relative: {type: File, outputBinding: {outputEval: "${ return {class: 'File', location: 'out/a.txt'}; }"}}
  large: {type: Any, outputBinding: {glob: n.json, loadContents: true, outputEval: "$([JSON.parse(self[0].contents), inputs.number, inputs.number * 4, Math.pow(2, 63), Math.pow(2, 53)])"}}
