#!/usr/bin/env cwl-runner
cwlVersion: v1.0
class: CommandLineTool
requirements: [{class: InlineJavascriptRequirement}]
baseCommand: [head]
arguments: [-n, "$(inputs.n + inputs.k)"]
inputs:
  - {id: f, type: File, inputBinding: {position: 1}}
  - {id: n, type: int}
  - {id: k, type: int}
outputs: [{id: out, type: File, outputBinding: {glob: o}}]
stdout: o
