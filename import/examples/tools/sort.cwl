cwlVersion: v1.0
class: CommandLineTool
hints:
  DockerRequirement: {dockerPull: "debian:stable-slim"}
baseCommand: [sort, -u]
inputs:
  list: {type: File, inputBinding: {position: 1}}
outputs:
  sorted: stdout
stdout: $(inputs.list.nameroot).sorted.txt
