cwlVersion: v1.2
class: CommandLineTool
requirements:
  - class: InlineJavascriptRequirement
    expressionLib:
      - |
        function table(fs) { return fs.map(function (f, i) { return i + "\t" + f.basename + "\t" + f.size; }).join("\n"); }
  - class: InitialWorkDirRequirement
    listing:
      - $(inputs.one)
      - $(inputs.many)
      - $(inputs.absent)
      - entry: $(inputs.folder)
        entryname: ref
      - entryname: $(inputs.one.nameroot).json
        entry: $(inputs.settings)
      - entryname: list.tsv
        entry: "$(table(inputs.many))\n"
      - entryname: sub/run.sh
        entry: |-
          #!/bin/bash
          set -e
          for f in *.txt; do echo "\${f} $(inputs.n)"; done > out.list
          cat "$1" >> out.list
          ls ref | sort >> out.list
          printf '%s\\n' 'a\\tb' >> out.list
      - entry: $(inputs.rw)
        writable: true
      - entry: "${ return {class: 'File', basename: 'lit.txt', contents: 'literal ' + inputs.n}; }"
baseCommand: [bash, sub/run.sh]
inputs:
  one: File
  many: File[]
  absent: File?
  folder: Directory
  settings: Any
  n: double
  rw: {type: File, inputBinding: {position: 2, valueFrom: $(self.basename)}}
arguments: [list.tsv]
outputs:
  list: {type: File, outputBinding: {glob: out.list}}
  json: {type: File, outputBinding: {glob: "*.json"}}
  tsv: {type: File, outputBinding: {glob: list.tsv}}
  script: {type: File, outputBinding: {glob: sub/run.sh}}
  rw2: {type: File, outputBinding: {glob: $(inputs.rw.basename)}}
  lit: {type: File, outputBinding: {glob: lit.txt}}
