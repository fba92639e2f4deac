cwlVersion: v1.2
class: CommandLineTool
requirements:
  InlineJavascriptRequirement: {}
  SchemaDefRequirement:
    types:
      - $import: types.yml
baseCommand: [printf, "%s\\n"]
inputs:
  first:
    type:
      type: record
      name: first
      fields:
        b: {type: int, inputBinding: {prefix: -b, position: 2}}
        a: {type: float, inputBinding: {prefix: -a, position: 1}}
        c: {type: "string?", inputBinding: {prefix: -c, position: 0}}
    inputBinding: {prefix: --first, position: 3}
  none:
    type: ["null", {type: record, name: none, fields: [{name: f, type: File, inputBinding: {prefix: -f}}]}]
  samples:
    type: "types.yml#sample[]"
    inputBinding: {position: 1}
  choice:
    type:
      - {type: record, name: x, fields: {size: {type: int, inputBinding: {prefix: --size}}}}
      - {type: record, name: y, fields: {name: {type: string, inputBinding: {prefix: --name}}}}
  ratio: {type: double, inputBinding: {position: -1, valueFrom: $(self * 2)}}
arguments: [{position: 9, valueFrom: "$(inputs.samples.map(function (s) { return s.name + ':' + (s.weight === null); }).join(','))"}]
stdout: words.txt
outputs:
  words: stdout
  made:
    type:
      type: record
      name: made
      fields:
        file: {type: File, outputBinding: {glob: words.txt}}
        half: {type: float, outputBinding: {outputEval: $(inputs.ratio / 2)}}
        whole: {type: double, outputBinding: {outputEval: $(inputs.ratio)}}
        name: {type: "string?", outputBinding: {outputEval: $(inputs.first.c)}}
