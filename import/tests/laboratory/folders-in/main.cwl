cwlVersion: v1.2
class: Workflow
doc: Folders of runs go in, are listed, chosen from, changed in a copy, and put together anew.
requirements: {InlineJavascriptRequirement: {}, ScatterFeatureRequirement: {}, StepInputExpressionRequirement: {}, MultipleInputFeatureRequirement: {}}
inputs:
  run: {type: Directory, loadListing: deep_listing}
  extra: File[]
  depth: int?
outputs:
  chosen: {type: "File[]", outputSource: choose/files}
  changed: {type: Directory, outputSource: change/folder}
  sizes: {type: "long[]", outputSource: choose/sizes}
  whole: {type: Directory, outputSource: gather/folder}
  inner: {type: "File?", outputSource: inner/file}
steps:
  choose:
    run:
      class: ExpressionTool
      inputs: {run: {type: Directory, loadListing: deep_listing}, ending: {type: string, default: .txt}}
      outputs: {files: "File[]", sizes: "long[]"}
      expression: |
        ${
          function all(d) {
            return d.listing.reduce(function (found, it) { return found.concat(it.class === "Directory" ? all(it) : [it]); }, []);
          }
          var files = all(inputs.run).filter(function (f) { return f.basename.slice(-inputs.ending.length) === inputs.ending; });
          files.sort(function (a, b) { return a.basename < b.basename ? 1 : -1; });
          return {files: files, sizes: files.map(function (f) { return f.basename.length; })};
        }
    in: {run: run}
    out: [files, sizes]
  change:
    run:
      class: CommandLineTool
      requirements:
        InlineJavascriptRequirement: {}
        InitialWorkDirRequirement:
          listing:
            - {entry: $(inputs.run), writable: true, entryname: "work_$(inputs.run.basename)"}
            - {entryname: list.txt, entry: "${ return inputs.files.map(function (f) { return f.basename; }).join('\\n') + '\\n'; }"}
        ShellCommandRequirement: {}
      arguments: [{shellQuote: false, valueFrom: "cd work_* && cat ../list.txt >> x.txt && mkdir -p new/deep && mv below new/deep/ && rm -f none"}]
      inputs: {run: Directory, files: "File[]"}
      outputs: {folder: {type: Directory, outputBinding: {glob: "work_*", outputEval: "${ self[0].basename = 'changed'; return self; }"}}}
    in: {run: run, files: choose/files}
    out: [folder]
  gather:
    run:
      class: ExpressionTool
      inputs: {files: "File[]", folder: Directory}
      outputs: {folder: Directory}
      expression: |
        ${
          return {folder: {class: "Directory", basename: "whole", listing: [
            {class: "Directory", basename: "files", listing: inputs.files},
            inputs.folder,
            {class: "File", basename: "note.txt", contents: inputs.files.length + " files\n"}]}};
        }
    in: {files: {source: [choose/files, extra], linkMerge: merge_flattened}, folder: change/folder}
    out: [folder]
  inner:
    run:
      class: CommandLineTool
      requirements: {InlineJavascriptRequirement: {}}
      baseCommand: [ls, "-1"]
      inputs: {folder: {type: Directory, inputBinding: {position: 1, valueFrom: "$(self.path)/$(inputs.depth === null ? 'files' : 'changed')"}}, depth: int?}
      stdout: ls.txt
      outputs: {file: {type: "File?", outputBinding: {glob: [none.txt, "$(inputs.folder.basename).txt", ls.txt]}}}
    when: $(inputs.depth !== 3)
    in: {folder: gather/folder, depth: depth}
    out: [file]
