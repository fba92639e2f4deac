#!/usr/bin/env cwl-runner
cwlVersion: v1.0
class: CommandLineTool
doc: Greets somebody.
baseCommand: [printf, "%s, %s!\n"]
inputs:
  words:
    type: string
    default: Good morning
    inputBinding: {position: 1}
  name:
    type: string
    inputBinding: {position: 2}
outputs:
  greeting: stdout
stdout: greeting.txt
