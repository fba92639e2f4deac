cwlVersion: v1.2
class: Workflow
$namespaces: {cwltool: "http://commonwl.org/cwltool#", arv: "http://arvados.org/cwl#"}
requirements: {InlineJavascriptRequirement: {}, SubworkflowFeatureRequirement: {}, ResourceRequirement: {coresMin: 2, ramMin: 2000}}
hints:
  arv:RunInSingleContainer: {}
  EnvVarRequirement: {envDef: {A: outer, B: outerb}}
  cwltool:Secrets: {secrets: []}
inputs: []
outputs: {oa: {type: File, outputSource: a/o}, ob: {type: File, outputSource: b/o}, oc: {type: File, outputSource: c/o}}
steps:
  a: {run: t.cwl, in: {n: {default: a}}, out: [o]}
  b:
    run: t.cwl
    in: {n: {default: b}}
    out: [o]
    requirements: {ResourceRequirement: {coresMin: 3}, EnvVarRequirement: {envDef: {A: step}}}
  c:
    run: u.cwl
    in: {n: {default: c}}
    out: [o]
    hints: {ResourceRequirement: {coresMin: 5}}
