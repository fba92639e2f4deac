cwlVersion: v1.0
class: Workflow
requirements:
  - class: ScatterFeatureRequirement
  - class: MultipleInputFeatureRequirement
  - class: InlineJavascriptRequirement
  - class: StepInputExpressionRequirement
inputs:
  letters: string[]
  numbers: float[]
  extra: string
outputs:
  grid: {type: {type: array, items: {type: array, items: string}}, outputSource: pair/text}
  rows: {type: "string[]", outputSource: row/text}
  both: {type: Any, outputSource: nested/out}
steps:
  pair:
    run: pair.cwl
    scatter: [a, b]
    scatterMethod: nested_crossproduct
    in: {a: letters, b: numbers}
    out: [text]
  row:
    run: join.cwl
    scatter: words
    in:
      words: pair/text
      sep: {valueFrom: "$('-' + inputs.words.length + '-')"}
    out: [text]
  nested:
    run: flatten.cwl
    in:
      lists:
        source: [row/text, letters]
        linkMerge: merge_nested
      more:
        source: [extra, row/text]
        linkMerge: merge_flattened
    out: [out]
