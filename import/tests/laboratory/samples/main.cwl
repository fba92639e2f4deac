cwlVersion: v1.2
class: Workflow
requirements:
  ScatterFeatureRequirement: {}
  StepInputExpressionRequirement: {}
  InlineJavascriptRequirement: {}
  SchemaDefRequirement:
    types:
      - $import: sample.yml
inputs:
  samples: sample.yml#sample[]
  reference: {type: File, secondaryFiles: [{pattern: .fai, required: false}]}
outputs:
  headers: {type: "File[]", outputSource: head/out}
  merged: {type: File, outputSource: merge/out}
  names: {type: "string[]", outputSource: collect/names}
steps:
  head:
    run: head.cwl
    scatter: sample
    in:
      sample: samples
      reference: reference
      n: {default: 2}
      name: {valueFrom: $(inputs.sample.name)}
      file: {valueFrom: "$(inputs.sample.reads[0])"}
    out: [out]
  merge:
    run: merge.cwl
    in:
      files: head/out
      out_name: {source: samples, valueFrom: "$(self.map(function (s) { return s.name; }).join('_'))"}
    out: [out]
  collect:
    run:
      class: ExpressionTool
      requirements: {InlineJavascriptRequirement: {}, SchemaDefRequirement: {types: [{$import: sample.yml}]}}
      inputs: {samples: "sample.yml#sample[]"}
      outputs: {names: "string[]"}
      expression: '${ return {"names": inputs.samples.map(function (s) { return s.name + (s.fraction ? ":" + s.fraction : ""); })}; }'
    in: {samples: samples}
    out: [names]
