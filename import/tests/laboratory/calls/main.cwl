cwlVersion: v1.2
class: Workflow
doc: Calls of each sample and each region, joined in two ways; what is optional is left out by conditions.
requirements:
  InlineJavascriptRequirement: {}
  ScatterFeatureRequirement: {}
  StepInputExpressionRequirement: {}
  MultipleInputFeatureRequirement: {}
  SubworkflowFeatureRequirement: {}
inputs:
  reference: {type: File, secondaryFiles: [.fai, ^.dict]}
  bams: {type: "File[]", secondaryFiles: [{pattern: .bai, required: true}]}
  regions: string[]
  min_qual: {type: float, default: 29.50}
  filters: {type: {type: array, items: {type: record, name: rule, fields: {name: string, expression: string, cut: "float?"}}}}
  panel: {type: File?, secondaryFiles: [.idx]}
outputs:
  joined: {type: "File[]", outputSource: each/joined}
  final: {type: File, outputSource: [filtered/vcf, all/vcf], pickValue: first_non_null, secondaryFiles: [.idx]}
  counts: {type: "int[]", outputSource: each/count}
  grid: {type: {type: array, items: {type: array, items: string}}, outputSource: named/name}
  others: {type: "Any[]", outputSource: [unfiltered/vcf, all/text], pickValue: all_non_null}
steps:
  each:
    run: sample.cwl
    scatter: bam
    in: {reference: reference, bam: bams, regions: regions, min_qual: {source: min_qual, valueFrom: $(self / 2)}, panel: panel}
    out: [joined, count]
  all:
    run: join.cwl
    in: {vcfs: each/joined, name: {source: bams, valueFrom: "${ return self.map(function (b) { return b.nameroot; }).sort().reverse().join('-') + '.vcf'; }"}}
    out: [vcf, text]
  filtered:
    run: filter.cwl
    when: $(inputs.rules.length > 0)
    in: {vcf: all/vcf, rules: filters, reference: reference}
    out: [vcf]
  unfiltered:
    run: filter.cwl
    when: $(inputs.rules === null)
    in: {vcf: all/vcf, rules: {source: filters, valueFrom: "$(self.filter(function (r) { return r.cut === null; }))"}, reference: reference}
    out: [vcf]
  named:
    run:
      class: ExpressionTool
      inputs: {bam: File, region: string, cut: float}
      outputs: {name: string}
      expression: "$({name: inputs.bam.nameroot + ':' + inputs.region + '@' + inputs.cut})"
    scatter: [bam, region]
    scatterMethod: nested_crossproduct
    in: {bam: bams, region: regions, cut: min_qual}
    out: [name]
