cwlVersion: v1.2
class: Workflow
requirements: {InlineJavascriptRequirement: {}, ScatterFeatureRequirement: {}, StepInputExpressionRequirement: {}, MultipleInputFeatureRequirement: {}}
inputs: {fs: "File[]", go: {type: boolean, default: true}, opt: "File?", n: int?}
outputs:
  o: {type: File, outputSource: c/o}
  p: {type: "File[]", outputSource: d/o}
  q: {type: "File[]", outputSource: [c/o, opt], pickValue: all_non_null}
steps:
  c:
    run: c.cwl
    when: $(inputs.go)
    in: {f: {source: fs, valueFrom: "$(self[0])"}, go: go, n: n}
    out: [o]
  d:
    run: c.cwl
    scatter: f
    in: {f: fs, n: {source: n, default: 3}}
    out: [o]
  e:
    run: c.cwl
    when: $(inputs.go)
    in: {f: c/o, n: {source: n, default: 4}, go: go}
    out: [o]
