cwlVersion: v1.0
class: CommandLineTool
requirements:
  - class: SchemaDefRequirement
    types: [{$import: types.yml}]
  - class: InlineJavascriptRequirement
baseCommand: [wc, -l]
inputs: {f: File, m: {type: "types.yml#mode"}}
stdin: $(inputs.f.path)
stdout: $(inputs.m).n
outputs:
  o: stdout
  r:
    type: types.yml#stats
    outputBinding:
      glob: "*.n"
      loadContents: true
      outputEval: |
        ${ var n = parseInt(self[0].contents); return {"lines": n, "ratio": n / 8, "file": self[0]}; }
