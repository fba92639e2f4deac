cwlVersion: v1.2
class: Workflow
requirements: {InlineJavascriptRequirement: {}}
inputs:
  - {id: bam, type: File, secondaryFiles: [{pattern: "$(self.nameroot + self.nameext + '.bai')", required: false}]}
  - {id: reference, type: File, secondaryFiles: ["${ return self.basename + '.fai'; }", "^.dict"]}
  - {id: others, type: "File[]"}
outputs:
  - {id: told, type: File, outputSource: tell/told}
  - {id: names, type: string, outputSource: name/names}
steps:
  - id: tell
    in: [{id: bam, source: bam}, {id: reference, source: [reference]}]
    out: [told]
    run:
      class: CommandLineTool
      requirements: {InlineJavascriptRequirement: {}}
      baseCommand: [samtools, calmd]
      inputs:
        bam: {type: File, inputBinding: {position: 1}}
        reference: {type: File, secondaryFiles: [.fai], inputBinding: {position: 2}}
      arguments: ["${ return (inputs.bam.secondaryFiles || []).concat(inputs.reference.secondaryFiles).map(function (f) { return f.path; }); }"]
      stdout: $(inputs.bam.nameroot).txt
      outputs: {told: stdout}
  - id: name
    in: [{id: others, source: others}]
    out: [names]
    run:
      class: ExpressionTool
      requirements: {InlineJavascriptRequirement: {}}
      inputs: {others: "File[]"}
      outputs: {names: string}
      expression: "$({names: inputs.others.map(function (f) { return f.basename + '+' + (f.secondaryFiles || []).map(function (s) { return s.basename; }).sort().join('+'); }).join(' ')})"
