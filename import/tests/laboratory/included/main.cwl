cwlVersion: v1.0
class: CommandLineTool
requirements:
  - class: InlineJavascriptRequirement
    expressionLib:
      - $include: lib.js
      - "var twice = function (x) { return double(x); };"
  - class: InitialWorkDirRequirement
    listing:
      - entryname: run.sh
        entry: |
          #!/bin/sh
          X=$(inputs.n)
          echo "X is \${X} and $X"
          awk '{print \$1, "\t", $2}' $(inputs.f.path)
      - entryname: $("cfg_" + twice(inputs.n) + ".ini")
        entry: "[main]\nvalue=$(twice(inputs.n))\nname=${return inputs.f.nameroot;}\n"
baseCommand: [sh, run.sh]
inputs: {n: int, f: File}
stdout: out.txt
outputs:
  out: stdout
  cfg: {type: File, outputBinding: {glob: "*.ini"}}
