cwlVersion: v1.2
class: CommandLineTool
requirements:
  DockerRequirement:
    dockerPull: debian:stable-slim
baseCommand: [grep, -c]
inputs:
  word: {type: string, inputBinding: {position: 1}}
  text: {type: File, inputBinding: {position: 2}}
outputs:
  count:
    type: string
    outputBinding:
      glob: count.txt
      loadContents: true
      outputEval: $(self[0].contents)
stdout: count.txt
