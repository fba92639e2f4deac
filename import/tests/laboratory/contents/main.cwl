cwlVersion: v1.2
class: Workflow
requirements: {StepInputExpressionRequirement: {}, InlineJavascriptRequirement: {}, ScatterFeatureRequirement: {}, MultipleInputFeatureRequirement: {}}
inputs:
  conf: {type: File, loadContents: true}
  tables: File[]
  extra: {type: "int?"}
outputs:
  o: {type: "File[]", outputSource: t/out}
  same: {type: File, outputSource: conf}
  s: {type: string, outputSource: e/s}
steps:
  t:
    run: t.cwl
    scatter: [f]
    in:
      f: tables
      w: {source: conf, loadContents: true, valueFrom: "$(self.contents.trim().split('\\n')[0])"}
      n: {default: 5}
    out: [out]
  e:
    run: e.cwl
    in: {f: {source: conf, loadContents: true}, k: {source: tables, valueFrom: "$(self.length)"}}
    out: [s]
