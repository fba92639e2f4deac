cwlVersion: v1.0
class: Workflow
requirements: {StepInputExpressionRequirement: {}, InlineJavascriptRequirement: {}, MultipleInputFeatureRequirement: {}}
inputs:
  script:
    type: File
    default: {class: File, location: scripts/join.py}
  tables:
    type: File[]
    default:
      - {class: File, location: t1.csv}
      - {class: File, location: t2.csv}
  header: {type: string, default: "a,b"}
outputs:
  out: {type: File, outputSource: join/out}
steps:
  join:
    run:
      class: CommandLineTool
      baseCommand: python3
      inputs:
        script: {type: File, inputBinding: {position: 1}}
        tables: {type: "File[]", inputBinding: {position: 2}}
        lit: {type: File, default: {class: File, basename: lit.csv, contents: "l,m\n"}, inputBinding: {position: 3}}
        header: {type: string, inputBinding: {prefix: --header=, separate: false, position: 9}}
      stdout: joined.csv
      outputs: {out: stdout}
    in:
      script: script
      tables: tables
      header: {source: header, valueFrom: '$(self.split(",").reverse().join(";"))'}
    out: [out]
