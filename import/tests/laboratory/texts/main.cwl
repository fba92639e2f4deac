cwlVersion: v1.2
class: CommandLineTool
requirements: {InlineJavascriptRequirement: {}, ShellCommandRequirement: {}}
baseCommand: [printf, '%s|']
inputs:
  s: {type: string, inputBinding: {position: 1}}
  t: {type: string?, inputBinding: {position: 2, prefix: --t, separate: false}}
  e: {type: {type: enum, symbols: ["a b", "c"]}, inputBinding: {position: 3}}
  f: {type: File, inputBinding: {position: 4, prefix: file=, separate: false, valueFrom: $(self.basename)}}
  d: {type: double, inputBinding: {position: 5}}
  neg: {type: float, inputBinding: {position: 6, prefix: -x}}
  big: {type: double, inputBinding: {position: 7}}
  star: {type: string, default: "*.txt", inputBinding: {position: 8, shellQuote: false}}
  quote: {type: string, default: "it's \"q\" $HOME", inputBinding: {position: 9}}
arguments:
  - {position: 10, shellQuote: false, valueFrom: "2>/dev/null"}
  - {position: 10, valueFrom: "\\(esc\\) $(inputs.s) \\$(no) \\${no}"}
  - {position: 10, valueFrom: "tab\tnl\nend"}
stdout: out
stderr: err
outputs: {o: stdout, e2: {type: stderr}}
