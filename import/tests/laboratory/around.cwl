cwlVersion: v1.1
class: Workflow
requirements:
  InlineJavascriptRequirement: {}
  ScatterFeatureRequirement: {}
  StepInputExpressionRequirement: {}
  EnvVarRequirement: {envDef: {GREETING: "$('Hello, ' + String(inputs.to))"}}
  ResourceRequirement: {coresMin: 2, ramMin: 100}
inputs: {to: string, records: {type: {type: array, items: {type: record, name: r, fields: {file: File, weight: float?}}}}}
outputs:
  greeting: {type: File, outputSource: greet/out}
  sizes: {type: "File[]", outputSource: each/out}
steps:
  greet:
    run:
      class: CommandLineTool
      baseCommand: [sh, -c, 'echo "$GREETING" "$@"', sh]
      inputs: {to: string}
      arguments: [$(runtime.cores), "$(runtime.ram)"]
      stdout: greeting.txt
      outputs: {out: stdout}
    in: {to: to}
    out: [out]
  each:
    scatter: record
    requirements: {EnvVarRequirement: {envDef: {GREETING: Bye}}}
    run:
      class: CommandLineTool
      baseCommand: [sh, -c, 'cat "$1"; shift; echo "$GREETING" "$@"', sh]
      inputs: {record: {type: {type: record, name: r2, fields: {file: {type: File, inputBinding: {position: 1}}, weight: {type: "float?", inputBinding: {position: 2, prefix: -w}}}}}, to: string}
      arguments: [{position: 3, valueFrom: $(inputs.record.weight)}]
      stdout: $(inputs.record.file.nameroot).out
      outputs: {out: stdout}
    in: {record: records, to: to}
    out: [out]
