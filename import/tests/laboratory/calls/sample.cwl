cwlVersion: v1.2
class: Workflow
requirements: {ScatterFeatureRequirement: {}, InlineJavascriptRequirement: {}, StepInputExpressionRequirement: {}}
inputs:
  reference: {type: File, secondaryFiles: [.fai, ^.dict]}
  bam: {type: File, secondaryFiles: [.bai]}
  regions: string[]
  min_qual: double
  panel: File?
outputs:
  joined: {type: File, outputSource: join/vcf, secondaryFiles: [.idx]}
  count: {type: int, outputSource: count/n}
steps:
  call:
    run: caller.cwl
    scatter: region
    in:
      reference: reference
      bam: {source: bam}
      region: regions
      min_qual: min_qual
      panel: panel
      out: {source: bam, valueFrom: "$(self.nameroot).$(inputs.region.split(':')[0]).vcf"}
    out: [vcf]
  join:
    run: join.cwl
    in: {vcfs: call/vcf, name: {source: bam, valueFrom: $(self.nameroot).joined.vcf}}
    out: [vcf]
  count:
    run:
      class: CommandLineTool
      requirements: {InlineJavascriptRequirement: {}}
      baseCommand: [grep, -c, .]
      inputs: {files: {type: "File[]", inputBinding: {position: 1}}}
      stdout: lines.txt
      outputs:
        n: {type: int, outputBinding: {glob: lines.txt, loadContents: true, outputEval: "${ return self[0].contents.split('\\n').filter(function (l) { return l; }).map(function (l) { return parseInt(l.split(':').pop()); }).reduce(function (a, b) { return a + b; }, 0); }"}}
    in: {files: {source: [call/vcf], linkMerge: merge_flattened}}
    out: [n]
