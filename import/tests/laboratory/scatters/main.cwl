cwlVersion: v1.2
class: Workflow
requirements: {InlineJavascriptRequirement: {}, StepInputExpressionRequirement: {}, ScatterFeatureRequirement: {}, SubworkflowFeatureRequirement: {}}
inputs: {groups: {type: {type: array, items: {type: array, items: File}}}, ws: "string[]", none: "string[]"}
outputs:
  o: {type: {type: array, items: {type: array, items: File}}, outputSource: outer/o}
  e: {type: "File[]", outputSource: empty/out}
  fl: {type: "string[]", outputSource: x/s}
steps:
  outer:
    run:
      class: Workflow
      requirements: {ScatterFeatureRequirement: {}, StepInputExpressionRequirement: {}, InlineJavascriptRequirement: {}}
      inputs: {fs: "File[]", g: string}
      outputs: {o: {type: "File[]", outputSource: one/out}}
      steps:
        one:
          run: one.cwl
          scatter: f
          when: $(inputs.f.size > 1)
          in: {f: fs, g: g, name: {valueFrom: "$(inputs.g + '_' + inputs.f.nameroot)"}}
          out: [out]
    scatter: [fs, g]
    scatterMethod: dotproduct
    in: {fs: groups, g: ws}
    out: [o]
  empty:
    run: one.cwl
    scatter: g
    in: {f: {source: groups, valueFrom: "$(self[0][0])"}, g: none, name: {valueFrom: $(inputs.g)}}
    out: [out]
  x:
    run: {class: ExpressionTool, inputs: {a: string, b: string}, outputs: {s: string}, expression: "$({s: inputs.a + inputs.b})", requirements: {InlineJavascriptRequirement: {}}}
    scatter: [a, b]
    scatterMethod: flat_crossproduct
    in: {a: ws, b: {source: ws, valueFrom: "$(self + inputs.a)"}}
    out: [s]
