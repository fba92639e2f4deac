cwlVersion: v1.0
class: Workflow
requirements:
  $import: reqs.yml
inputs: {f: File, types: {type: "types.yml#mode"}}
outputs: {o: {type: File, outputSource: s/o}, r: {type: "types.yml#stats", outputSource: s/r}}
steps:
  s:
    run: {$import: tool.cwl}
    in: {f: f, m: types}
    out: [o, r]
