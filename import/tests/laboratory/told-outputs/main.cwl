cwlVersion: v1.2
class: CommandLineTool
requirements:
  InlineJavascriptRequirement: {}
  InitialWorkDirRequirement:
    listing:
      - entryname: go.py
        entry: {$include: go.py.txt}
baseCommand: [python3, go.py]
inputs:
  f: {type: File, inputBinding: {position: 1}}
  ks: {type: {type: array, items: double}, inputBinding: {position: 2, prefix: --k, separate: true}}
outputs:
  files: File[]
  rec: {type: {type: record, name: r, fields: {a: float, b: "string?", f: File}}}
  recs: {type: {type: array, items: {type: record, name: q, fields: {n: int, v: double}}}}
  d: double
  maybe: int?
