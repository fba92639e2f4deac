cwlVersion: v1.0
class: Workflow
id: main_wf
requirements:
  - class: SubworkflowFeatureRequirement
  - class: InlineJavascriptRequirement
  - class: StepInputExpressionRequirement
inputs:
  - id: reads
    type: {type: array, items: File}
  - id: conf
    type:
      - 'null'
      - name: conf_t
        type: record
        fields:
          - name: k
            type: int
          - name: w
            type: [ 'null', double ]
  - {id: n, type: int?, default: 3}
outputs:
  - id: o
    type: File
    outputSource: '#main_wf/last/out'
  - id: ks
    type: int
    outputSource: kk/k
steps:
  - id: first
    run: {class: CommandLineTool, id: cat, baseCommand: cat, inputs: [{id: fs, type: {type: array, items: File}, inputBinding: {position: 1}}], outputs: [{id: out, type: stdout}], stdout: cat.txt}
    in: [{id: fs, source: reads}]
    out: [{id: out}]
  - id: last
    run: head.cwl
    in:
      - {id: f, source: first/out}
      - {id: n, source: [n]}
      - {id: k, source: conf, valueFrom: "$(self ? self.k : 0)"}
    out: [out]
  - id: kk
    run:
      class: ExpressionTool
      inputs: [{id: conf, type: Any?}]
      outputs: [{id: k, type: int}]
      expression: "${ return {'k': inputs.conf == null ? -1 : inputs.conf.k}; }"
    in: [{id: conf, source: conf}]
    out: [k]
