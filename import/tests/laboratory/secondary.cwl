cwlVersion: v1.0
class: CommandLineTool
requirements:
  InlineJavascriptRequirement:
    expressionLib:
      - function stem(all) { return all.one.nameroot; }
baseCommand: cat
inputs:
  one:
    type: File
    secondaryFiles:
      - "${ if (self.nameext == '.txt') { return self.basename + '.idx'; } return self.basename + '.none'; }"
      - "${ return inputs.with_dict ? [self.location.replace(/^.*\\//, '').replace('.txt', '.dict')] : []; }"
    inputBinding: {}
  with_dict: boolean
arguments: ["$(inputs.one.secondaryFiles.map(function (f) { return f.path; }))"]
stdout: $(stem(inputs))_$(inputs.one.secondaryFiles.length).out
outputs: {out: stdout}
