cwlVersion: v1.1
class: Workflow
requirements: [{class: InlineJavascriptRequirement}, {class: StepInputExpressionRequirement}, {class: ScatterFeatureRequirement}]
inputs:
  bams: {type: "File[]", secondaryFiles: [.bai]}
  ref: {type: File, secondaryFiles: ["^.dict", ".fai"]}
outputs:
  out: {type: "File[]", outputSource: use/o}
  sorted: {type: File, outputSource: one/o, secondaryFiles: [.bai]}
  names: {type: "string[]", outputSource: names/n}
steps:
  use:
    run: use.cwl
    scatter: bam
    in: {bam: bams, ref: ref, all: bams}
    out: [o]
  one:
    run:
      class: CommandLineTool
      requirements: {InitialWorkDirRequirement: {listing: ["$(inputs.bams)"]}, InlineJavascriptRequirement: {}}
      baseCommand: [sh, -c, "cat *.bam > all.bam; cat *.bai > all.bam.bai"]
      inputs: {bams: "File[]"}
      outputs: {o: {type: File, secondaryFiles: [.bai], outputBinding: {glob: all.bam}}}
    in: {bams: bams}
    out: [o]
  names:
    run:
      class: ExpressionTool
      requirements: {InlineJavascriptRequirement: {}}
      inputs: {b: "File[]", r: File}
      outputs: {n: "string[]"}
      expression: "${ return {n: inputs.b.map(function (x) { return x.basename + '+' + x.secondaryFiles[0].basename; }).concat(inputs.r.secondaryFiles.map(function (s) { return s.nameext; }))}; }"
    in: {b: bams, r: ref}
    out: [n]
