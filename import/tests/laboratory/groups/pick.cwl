cwlVersion: v1.2
class: ExpressionTool
inputs: {files: "File[]"}
outputs: {biggest: File}
requirements: {InlineJavascriptRequirement: {}}
expression: |
  ${
    var best = inputs.files[0];
    inputs.files.forEach(function (f) { if (f.size > best.size) { best = f; } });
    best.basename = "biggest" + best.nameext;
    return {biggest: best};
  }
