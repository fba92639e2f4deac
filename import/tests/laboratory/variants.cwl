cwlVersion: v1.0
class: Workflow
requirements: [{class: InlineJavascriptRequirement}, {class: ScatterFeatureRequirement}, {class: StepInputExpressionRequirement}, {class: MultipleInputFeatureRequirement}, {class: SubworkflowFeatureRequirement}]
inputs:
  - {id: reads, type: {type: array, items: {type: array, items: File}}}
  - {id: names, type: "string[]"}
  - {id: rate, type: double, default: 0.05}
  - {id: folder, type: Directory}
outputs:
  - {id: merged, type: File, outputSource: merge/out}
  - {id: each, type: "File[]", outputSource: sub/done}
  - {id: chosen, type: File, outputSource: choose/file}
  - {id: listed, type: File, outputSource: list/out}
steps:
  - id: sub
    scatter: [pair, name]
    scatterMethod: dotproduct
    in:
      - {id: pair, source: reads}
      - {id: name, source: names}
      - {id: rate, source: rate, valueFrom: $(self / 2)}
    out: [done]
    run:
      class: Workflow
      inputs: {pair: "File[]", name: string, rate: float}
      outputs: {done: {type: File, outputSource: cat/out}}
      steps:
        cat:
          in:
            one: {source: pair, valueFrom: "$(self[0])"}
            two: {source: pair, valueFrom: "$(self.length > 1 ? self[1] : null)"}
            name: {source: name, valueFrom: "$(self.toUpperCase())"}
            rate: rate
            note: {default: 1.0e-3}
          out: [out]
          run:
            class: CommandLineTool
            requirements: [{class: ShellCommandRequirement}, {class: InitialWorkDirRequirement, listing: [{entryname: "$(inputs.name).cfg", entry: "rate = $(inputs.rate)\nname = $(inputs.name)\n"}, $(inputs.two)]}]
            baseCommand: cat
            inputs:
              one: {type: File, inputBinding: {position: 1}}
              two: {type: "File?"}
              name: string
              rate: float
              note: {type: "double?", inputBinding: {position: 5, prefix: "; echo", shellQuote: false}}
            arguments:
              - {position: 2, valueFrom: "${ return inputs.two ? inputs.two.basename : null; }"}
              - {position: 3, valueFrom: $(inputs.name).cfg}
              - {position: 4, shellQuote: false, valueFrom: "; ls"}
            stdout: $(inputs.name).txt
            outputs: {out: stdout}
  - id: merge
    in:
      - {id: files, source: [sub/done, choose/file], linkMerge: merge_flattened}
      - {id: count, source: sub/done, valueFrom: "${ return self.length / 2; }"}
    out: [out]
    run:
      class: CommandLineTool
      baseCommand: cat
      inputs: {files: {type: "File[]", inputBinding: {}}, count: float}
      stdout: merged-$(inputs.count).txt
      outputs: {out: stdout}
  - id: choose
    in: [{id: folder, source: folder}, {id: wanted, default: x.txt}]
    out: [file, rest]
    run:
      class: ExpressionTool
      inputs: {folder: Directory, wanted: string}
      outputs: {file: File, rest: {type: {type: array, items: [File, Directory]}}}
      expression: |
        ${
          var found = null, rest = [];
          for (var i = 0; i < inputs.folder.listing.length; i++) {
            var it = inputs.folder.listing[i];
            if (it.basename == inputs.wanted) { found = it; } else { rest.push(it); }
          }
          return {"file": found, "rest": rest};
        }
  - id: list
    in: [{id: all, source: choose/rest}, {id: rates, source: [rate], linkMerge: merge_nested}]
    out: [out]
    run:
      class: CommandLineTool
      requirements: {InitialWorkDirRequirement: {listing: "${ return inputs.all; }"}}
      baseCommand: [ls, -R]
      inputs: {all: {type: {type: array, items: [File, Directory]}}, rates: "double[]"}
      arguments: [{valueFrom: ".", position: 1}]
      stdout: list$(inputs.rates[0]).txt
      outputs: {out: stdout}
