cwlVersion: v1.2
class: CommandLineTool
label: secondary files come along with a file that keeps its name and is named by a reference
requirements:
  InlineJavascriptRequirement: {}
  InitialWorkDirRequirement:
    listing:
      - $(inputs.kept)
      - {entry: $(inputs.all), writable: true}
      - {entry: $(inputs.written), writable: true}
      - {entry: $(inputs.renamed), entryname: renamed.txt}
      - "$([inputs.computed])"
      - "${ return {class: 'Directory', basename: 'inner', listing: [inputs.inner]}; }"
baseCommand: [sh, -c]
arguments: ["ls -1R; test -L A.bam.bai || echo copied; basename $(inputs.written.secondaryFiles[0].path)"]
inputs:
  kept: {type: File, secondaryFiles: [.idx]}
  all: {type: "File[]", secondaryFiles: [.bai]}
  written: {type: File, secondaryFiles: [.fai, ^.dict]}
  renamed: {type: File, secondaryFiles: [.bai]}
  computed: {type: File, secondaryFiles: [.bai]}
  inner: {type: File, secondaryFiles: [.idx]}
stdout: log.txt
outputs:
  log: stdout
  written: {type: File, secondaryFiles: [.fai, ^.dict, ^.none], outputBinding: {glob: $(inputs.written.basename)}}
