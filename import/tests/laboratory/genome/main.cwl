cwlVersion: v1.2
class: Workflow
doc: Makes an index in a folder, aligns pairs that are records, and reports each folder of results.
requirements:
  InlineJavascriptRequirement: {}
  ScatterFeatureRequirement: {}
  StepInputExpressionRequirement: {}
  SubworkflowFeatureRequirement: {}
  MultipleInputFeatureRequirement: {}
  SchemaDefRequirement: {types: [{$import: pair.yml}]}
inputs:
  fasta: File
  pairs: pair.yml#pair[]
  ratio: float?
  unpack: {type: "string?", default: cat}
outputs:
  bams: {type: "File[]", outputSource: align/bam}
  logs: {type: {type: array, items: {type: array, items: File}}, outputSource: align/logs}
  report: {type: Directory, outputSource: report/folder}
  mapped: {type: "double[]", outputSource: rates/rate}
steps:
  index:
    run: star-index.cwl
    in: {fasta: fasta, overhang: {default: 99}, name: {source: fasta, valueFrom: "$(self.nameroot + '_star')"}}
    out: [folder]
  align:
    run: star-align.cwl
    scatter: pair
    in:
      index: index/folder
      pair: pairs
      ratio: ratio
      unpack: unpack
      prefix: {valueFrom: "$(inputs.pair.name)."}
      strand: {valueFrom: "$(inputs.pair.strand || 'unknown')"}
    out: [bam, logs]
  flat:
    run: flat.cwl
    in: {nested: align/logs}
    out: [files]
  report:
    run: report.cwl
    in: {files: {source: [flat/files, align/bam], linkMerge: merge_flattened}, title: {default: "all of $(it)"}}
    out: [folder]
  rates:
    run:
      class: ExpressionTool
      inputs: {log: {type: File, loadContents: true}, n: int}
      outputs: {rate: double}
      expression: |
        ${
          return {rate: inputs.log.contents.split("\n").length / inputs.n};
        }
    scatter: log
    in: {log: flat/files, n: {default: 16}}
    out: [rate]
