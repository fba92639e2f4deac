cwlVersion: v1.0
class: CommandLineTool
doc: A script that the document carries says what the outputs are, in cwl.output.json.
requirements:
  - class: InlineJavascriptRequirement
  - class: InitialWorkDirRequirement
    listing:
      - entryname: run.py
        entry: |
          import json, os, sys
          names = sys.argv[2:]
          os.makedirs("made/inner")
          found = []
          for at, name in enumerate(names):
              with open(name) as it, open("made/inner/%d.txt" % at, "w") as out:
                  out.write("%s\n" % it.readline().rstrip("\n"))
              found.append({"class": "File", "path": os.path.abspath("made/inner/%d.txt" % at), "basename": os.path.basename(name) + "\\.copy"})
          print({"n": "\$(x)", "t": '\t'})
          json.dump({"files": found, "folder": {"class": "Directory", "location": "made"}, "rate": $(inputs.rate) / 4, "words": [sys.argv[1], None],
                     "table": {"name": "t", "n": len(found), "first": found[0]}}, open("cwl.output.json", "w"))
      - entryname: $(inputs.names[0])
        entry: $(inputs.files[1])
        writable: true
baseCommand: [python3, run.py]
inputs:
  files: {type: "File[]", inputBinding: {position: 2}}
  names: {type: "string[]", inputBinding: {position: 1, valueFrom: "$(self[0].replace(/(\\w+)\\.(\\w+)/g, '$2-$1'))"}}
  rate: double
stdout: log
outputs:
  files: File[]
  folder: Directory
  rate: float
  words: {type: {type: array, items: ["null", string]}}
  table: {type: {type: record, fields: [{name: name, type: string}, {name: n, type: int}, {name: first, type: File}]}}
