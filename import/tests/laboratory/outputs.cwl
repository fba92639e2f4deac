cwlVersion: v1.2
class: CommandLineTool
requirements: {InlineJavascriptRequirement: {}, ShellCommandRequirement: {}}
arguments:
  - {shellQuote: false, valueFrom: "echo 1 > a.txt; echo i > a.txt.idx; echo 2 > b.txt; mkdir d; echo 3 > d/c.txt; echo err >&2; wc -c < $(inputs.one.path); exit 3"}
successCodes: [3]
inputs: {one: {type: File, secondaryFiles: [{pattern: .idx, required: $(inputs.needs)}, "${ return self.nameroot + '.dict'; }"], loadContents: true}, needs: boolean}
stdout: $(inputs.one.nameroot)_out.txt
stderr: $(inputs.one.contents[0]).err
outputs:
  out: stdout
  err: stderr
  renamed: {type: File, outputBinding: {glob: a.txt, outputEval: "${ self[0].basename = 'new.txt'; return self[0]; }"}}
  many: {type: "File[]", outputBinding: {glob: "$(['a.txt', 'b.txt'])"}}
  folder: {type: Directory, outputBinding: {glob: d, outputEval: "$(self[0])"}}
  chosen: {type: "File[]", outputBinding: {glob: "*.txt", outputEval: "$(self.filter(function (f) { return f.size > 1; }).reverse())"}}
  contents: {type: "string[]", outputBinding: {glob: [a.txt, b.txt], loadContents: true, outputEval: "$(self.map(function (f) { return f.contents.trim(); }))"}}
  code: {type: int, outputBinding: {outputEval: $(runtime.exitCode)}}
  given: {type: File, outputBinding: {outputEval: $(inputs.one)}}
  secondary: {type: "string[]", outputBinding: {outputEval: "$(inputs.one.secondaryFiles.map(function (f) { return f.basename; }).sort())"}}
  absent: {type: "File?", outputBinding: {glob: "*.none"}}
