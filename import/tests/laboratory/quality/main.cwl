cwlVersion: v1.2
class: Workflow
doc: Quality of each file, before and after; a report over all of them in one folder. Steps that are not asked for don't run.
requirements:
  - class: ScatterFeatureRequirement
  - class: StepInputExpressionRequirement
  - class: MultipleInputFeatureRequirement
  - class: InlineJavascriptRequirement
    expressionLib:
      - $include: names.js
  - class: SubworkflowFeatureRequirement
inputs:
  reads: {type: {type: array, items: File}, secondaryFiles: ["${ return self.nameext === '.dat' ? self.nameroot + '.idx' : null; }"]}
  more: File[]?
  title: {type: string, default: "Run \"7\""}
  kinds: {type: "string[]", default: [raw, trimmed]}
outputs:
  report: {type: File, outputSource: report/html}
  data: {type: Directory, outputSource: report/data}
  each: {type: {type: array, items: {type: array, items: File}}, outputSource: each/txt}
  names: {type: string, outputSource: report/names}
steps:
  - id: each
    run: quality.cwl
    in:
      - {id: reads, source: [reads, more], linkMerge: merge_flattened, pickValue: all_non_null}
      - {id: kind, source: kinds}
      - id: label
        valueFrom: $(tag(inputs.kind, inputs.reads))
    scatter: [reads, kind]
    scatterMethod: nested_crossproduct
    out: [txt]
  - id: report
    run: report.cwl
    in:
      - id: files
        source: each/txt
        valueFrom: "${ var all = []; self.forEach(function (l) { l.forEach(function (f) { all.push(f); }); }); return all; }"
      - {id: title, source: title, valueFrom: "$(self + ' of ' + inputs.first.nameroot)"}
      - {id: first, source: reads, valueFrom: "$(self[self.length - 1])"}
    out: [html, data, names]
