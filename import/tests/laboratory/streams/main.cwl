cwlVersion: v1.1
class: CommandLineTool
requirements:
  InlineJavascriptRequirement: {}
  EnvVarRequirement:
    envDef:
      LANG: C
      SAMPLE: $(inputs.file.nameroot)
      N: $(inputs.n + 1)x
      JOINED: '${ return inputs.words.join(":"); }'
  ShellCommandRequirement: {}
baseCommand: [sh, -c]
arguments:
  - 'cat; echo "$SAMPLE $N $JOINED"; echo problem >&2'
stdin: $(inputs.file.path)
stdout: $(inputs.file.nameroot)_$(inputs.n).out
stderr: err.log
inputs: {file: File, n: int, words: "string[]"}
outputs:
  out: stdout
  err: stderr
