cwlVersion: v1.2
class: CommandLineTool
doc: One table of several, the richest region first.
baseCommand: [sort, "-k2,2nr", "-k1,1"]
inputs:
  parts: {type: "File[]", inputBinding: {position: 1}}
outputs:
  table: stdout
stdout: gc.tsv
