cwlVersion: v1.2
class: Workflow
requirements: {ScatterFeatureRequirement: {}, InlineJavascriptRequirement: {}, StepInputExpressionRequirement: {}, LoadListingRequirement: {loadListing: shallow_listing}}
inputs:
  folder: Directory
  pattern: {type: string, default: ".txt"}
outputs:
  picked: {type: "File[]", outputSource: list/files}
  outdir: {type: Directory, outputSource: gather/dir}
  nfiles: {type: int, outputSource: count/n}
  sub: {type: Directory, outputSource: sub/dir}
steps:
  list:
    run: list.cwl
    in: {folder: folder, pattern: pattern}
    out: [files]
  upper:
    run: upper.cwl
    scatter: file
    in: {file: list/files}
    out: [out]
  gather:
    run: gather.cwl
    in:
      files: upper/out
      sub: {default: [{class: File, basename: readme.md, contents: "hello\n"}]}
      name: {source: folder, valueFrom: $(self.basename)_up}
    out: [dir]
  count:
    run: count.cwl
    in: {dir: gather/dir}
    out: [n]
  sub:
    run: subdir.cwl
    in: {folder: folder}
    out: [dir]
