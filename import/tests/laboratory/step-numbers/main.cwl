cwlVersion: v1.2
class: Workflow
doc: Numbers with a fraction in entries of steps that only texts name, and that come to the type Any.
requirements: {InlineJavascriptRequirement: {}, StepInputExpressionRequirement: {}, ScatterFeatureRequirement: {}}
inputs: {ratio: double, ns: "int[]"}
outputs:
  a: {type: string, outputSource: a/o}
  d: {type: string, outputSource: d/o}
  b: {type: "string[]", outputSource: b/o}
  c: {type: string, outputSource: c/o}
steps:
  a:
    run:
      class: CommandLineTool
      requirements: {InlineJavascriptRequirement: {}}
      baseCommand: [echo]
      inputs: {x: {type: Any, inputBinding: {position: 1}}, y: {type: double, inputBinding: {position: 2}}, n: "int?"}
      arguments: [{valueFrom: "$(typeof inputs.x + ' ' + typeof inputs.y)", position: 3}]
      stdout: o.txt
      outputs: {o: {type: string, outputBinding: {glob: o.txt, loadContents: true, outputEval: "$(self[0].contents)"}}}
    in: {x: {source: ratio, valueFrom: $(self)}, y: {valueFrom: $(inputs.factor)}, factor: {default: 1.5}}
    out: [o]
  b:
    run: t.cwl
    scatter: n
    in: {n: ns, factor: {default: 2.50}, more: {default: {k: [0.5, null], s: "1.5"}}, x: {valueFrom: "$(inputs.more)"}, y: {valueFrom: "$(inputs.n * inputs.factor + inputs.more.k[0])"}}
    out: [o]
  c:
    run: t.cwl
    when: $(inputs.limit > 0.75)
    in: {limit: {default: 0.8}, x: {default: [1.5, a]}, y: {source: ratio, valueFrom: "$(self / inputs.limit)"}}
    out: [o]
  d:
    run: t.cwl
    in: {x: {source: ratio, valueFrom: $(self)}, y: ratio}
    out: [o]
