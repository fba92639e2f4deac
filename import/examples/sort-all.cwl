cwlVersion: v1.1
class: Workflow
requirements:
  ScatterFeatureRequirement: {}
inputs:
  lists: File[]
outputs:
  sorted:
    type: File[]
    outputSource: sort/sorted
steps:
  sort:
    run: tools/sort.cwl
    scatter: list
    in: {list: lists}
    out: [sorted]
