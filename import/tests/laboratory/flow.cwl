cwlVersion: v1.2
class: Workflow
requirements: {InlineJavascriptRequirement: {expressionLib: ["function twice(x) { return 2 * x; }"]}, ScatterFeatureRequirement: {}, StepInputExpressionRequirement: {}, MultipleInputFeatureRequirement: {}, SubworkflowFeatureRequirement: {}}
inputs:
  files: {type: "File[]", secondaryFiles: [.idx]}
  alphas: double[]
  limit: {type: float, default: 0.5}
  name: string?
outputs:
  echoed: {type: {type: array, items: {type: array, items: File}}, outputSource: cross/out}
  some: {type: "File[]", outputSource: some/out, pickValue: all_non_null}
  total: {type: double, outputSource: sum/total}
  first: {type: File, outputSource: pick/first}
  folder: {type: Directory, outputSource: pick/folder}
  told: {type: File, outputSource: tell/out}
  mixed: {type: File, outputSource: mixed/out}
steps:
  cross:
    run: say.cwl
    scatter: [words, number]
    scatterMethod: nested_crossproduct
    in:
      words: {source: files, valueFrom: "$(self.nameroot + '-' + inputs.number)"}
      number: {source: alphas, valueFrom: $(twice(self))}
      name: {valueFrom: "$(inputs.words.secondaryFiles[0].basename)"}
    out: [out]
  some:
    run: say.cwl
    scatter: number
    when: $(inputs.number > inputs.limit)
    in: {words: {default: some}, number: alphas, limit: limit, name: {default: x}}
    out: [out]
  sum:
    run:
      class: ExpressionTool
      inputs: {numbers: "double[]"}
      outputs: {total: double}
      expression: "${ return {total: inputs.numbers.reduce(function (a, b) { return a + twice(b); }, 0)}; }"
    in: {numbers: alphas}
    out: [total]
  pick:
    run: pick.cwl
    in: {files: files, all: {source: cross/out, valueFrom: "$(self[0].concat(self[1]))"}, folder_name: {default: all}}
    out: [first, folder]
  tell:
    run: say.cwl
    in:
      words: {source: [name, limit], valueFrom: "$(self.map(String).join('+'))"}
      number: sum/total
      name: {source: pick/folder, valueFrom: "$(self.basename)"}
    out: [out]
  mixed:
    run: union.cwl
    in: {value: sum/total, other: limit}
    out: [out]
