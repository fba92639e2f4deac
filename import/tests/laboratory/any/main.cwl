cwlVersion: v1.2
class: Workflow
requirements: {InlineJavascriptRequirement: {}, StepInputExpressionRequirement: {}, ScatterFeatureRequirement: {}}
inputs: {x: float}
outputs: {o: {type: File, outputSource: t/o}, p: {type: "File[]", outputSource: u/o}, r: {type: Any, outputSource: e/o}}
steps:
  e:
    run:
      class: ExpressionTool
      inputs: {x: Any}
      outputs: {o: Any, l: Any, k: float}
      expression: "$({o: {a: inputs.x * 3, b: [0.5, 1]}, l: [1.5, 2], k: 2.5})"
    in: {x: x}
    out: [o, l, k]
  t:
    run: t.cwl
    in: {x: {source: e/o, valueFrom: $(self.a)}}
    out: [o]
  u:
    run: t.cwl
    scatter: x
    in: {x: e/l}
    out: [o]
