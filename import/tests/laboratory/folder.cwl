cwlVersion: v1.2
class: CommandLineTool
requirements:
  InlineJavascriptRequirement: {}
  InitialWorkDirRequirement:
    listing:
      - entryname: script.sh
        entry: |
          # costs \$5, "quoted" 'words' %s `date` $HOME \n
          name="$(inputs.name)"
          cat one.txt sub/renamed.txt > "\${name}.out"
      - $(inputs.one)
      - {entryname: sub/renamed.txt, entry: $(inputs.third), writable: true}
      - {entry: $(inputs.folder), writable: true}
      - $(inputs.more)
      - "$(null)"
      - {entryname: number.json, entry: $(inputs.ratio)}
      - {entryname: list.json, entry: "$([1, 'two', inputs.ratio])"}
      - entry: "${ return {'class': 'File', 'basename': 'made.txt', 'contents': inputs.name}; }"
baseCommand: [sh, -c]
arguments:
  - sh script.sh; echo more >> sub/renamed.txt; echo z >> folder/x.txt; cat number.json list.json made.txt two.txt $(inputs.one.basename); ls -1; printf '%s\n' "$(inputs.one.path)" | sed 's/.*\///'
inputs: {one: {type: File, secondaryFiles: [.idx]}, more: "File[]", third: File, folder: Directory, name: string, ratio: float}
stdout: log.txt
outputs:
  log: stdout
  out: {type: File, outputBinding: {glob: "*.out"}}
  script: {type: File, outputBinding: {glob: script.sh}}
  renamed: {type: File, outputBinding: {glob: sub/renamed.txt}}
  folder: {type: Directory, outputBinding: {glob: folder}}
  staged: {type: File, secondaryFiles: [.idx], outputBinding: {glob: $(inputs.one.basename)}}
