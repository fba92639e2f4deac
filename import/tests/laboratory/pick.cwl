cwlVersion: v1.2
class: ExpressionTool
requirements: {InlineJavascriptRequirement: {}}
inputs: {files: {type: "File[]", secondaryFiles: [.idx]}, all: "File[]", folder_name: string}
outputs: {first: File, folder: Directory}
expression: |
  ${
    var seen = {};
    var all = inputs.all.filter(function (f) { var is = !(f.basename in seen); seen[f.basename] = true; return is; });
    return {first: inputs.files[0], folder: {"class": "Directory", "basename": inputs.folder_name, "listing": all}};
  }
