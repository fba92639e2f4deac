cwlVersion: v1.2
class: CommandLineTool
requirements: {InlineJavascriptRequirement: {}}
baseCommand: [printf, "%s\\n"]
inputs:
  nested: {type: {type: array, items: {type: array, items: float, inputBinding: {prefix: -i}}, inputBinding: {prefix: -o}}, inputBinding: {prefix: -all, position: 2}}
  valued: {type: {type: array, items: int, inputBinding: {prefix: "-v", separate: false, valueFrom: $(self + 0.5)}}, inputBinding: {position: 1}}
  joined: {type: "double[]", inputBinding: {prefix: --joined=, itemSeparator: ",", separate: false, position: 3}}
  flags: {type: "boolean[]", inputBinding: {prefix: -f, position: 4}}
  late: {type: string, inputBinding: {position: $(inputs.valued.length * 10)}}
  early: {type: string, inputBinding: {position: "${ return -self.length; }"}}
  mixed: {type: [int, float, string, File, "null"], inputBinding: {prefix: --mixed, position: 5}}
  kind: {type: {type: enum, symbols: [x, y], inputBinding: {prefix: --kind}}}
  maybe: {type: "float?", inputBinding: {prefix: --maybe}}
stdout: words.txt
outputs:
  words: stdout
  mixed: {type: [int, float, string, File, "null"], outputBinding: {outputEval: $(inputs.mixed)}}
  numbers: {type: {type: array, items: double}, outputBinding: {outputEval: "$(inputs.joined.map(function (x) { return x * 3; }))"}}
