cwlVersion: v1.1
class: CommandLineTool
requirements: {InlineJavascriptRequirement: {}}
baseCommand: [python3, -c, "import sys,os;print([os.path.basename(a) for a in sys.argv[1:]])"]
inputs:
  grid:
    type:
      type: array
      items:
        type: array
        items: int
        inputBinding: {prefix: --row, itemSeparator: ","}
    inputBinding: {position: 1}
  files:
    type: {type: array, items: {type: array, items: File}}
    inputBinding: {position: 2, prefix: --files}
  strs: {type: ["null", {type: array, items: ["null", string]}], inputBinding: {position: 3, prefix: -s}}
  bools: {type: {type: array, items: boolean, inputBinding: {prefix: -b}}, inputBinding: {position: 4}}
  any: {type: {type: array, items: [int, string, File, float]}, inputBinding: {position: 5}}
  empty: {type: "string[]", default: [], inputBinding: {prefix: --empty, position: 6}}
  e: {type: {type: array, items: {type: enum, symbols: [x, y]}}, inputBinding: {prefix: -e, itemSeparator: "+", separate: false, position: 7}}
stdout: args
outputs:
  args: stdout
  back: {type: {type: array, items: {type: array, items: int}}, outputBinding: {outputEval: $(inputs.grid)}}
  names: {type: {type: array, items: string}, outputBinding: {outputEval: "$([].concat.apply([], inputs.files).map(function (f) { return f.basename; }))"}}
