cwlVersion: v1.0
class: CommandLineTool
requirements: {InlineJavascriptRequirement: {}, ShellCommandRequirement: {}, ResourceRequirement: {coresMin: 0, ramMin: 0}}
baseCommand: [sh, -c]
arguments: ["exit $(inputs.code)"]
successCodes: [3, 4]
inputs: {code: int}
outputs:
  note: {type: string, outputBinding: {outputEval: "$('code ' + inputs.code)"}}
  none: {type: "File[]", outputBinding: {glob: "*.none"}}
  opt: {type: File?, outputBinding: {glob: "$(['a', 'b'])"}}
  unknown: {type: boolean, outputBinding: {outputEval: $(runtime.exitCode === inputs.code)}}
  asked: {type: string, outputBinding: {outputEval: "$(runtime.cores + ' ' + runtime.ram)"}}
