cwlVersion: v1.2
class: Workflow
requirements:
  ScatterFeatureRequirement: {}
inputs:
  genome: File
  regions: File[]
outputs:
  table: {type: File, outputSource: merge/table}
steps:
  index:
    run: index.cwl
    in: {genome: genome}
    out: [indexed]
  content:
    run: content.cwl
    scatter: regions
    in: {genome: index/indexed, regions: regions}
    out: [shares]
  merge:
    run: table.cwl
    in: {parts: content/shares}
    out: [table]
