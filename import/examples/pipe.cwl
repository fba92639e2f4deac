cwlVersion: v1.2
class: CommandLineTool
requirements:
  ShellCommandRequirement: {}
  ResourceRequirement: {ramMin: 100}
  SchemaDefRequirement:
    types:
      - name: direction
        type: enum
        symbols: [rising, falling]
baseCommand: [sort]
arguments:
  - {valueFrom: "| head -n", shellQuote: false, position: 2}
inputs:
  list: {type: File, inputBinding: {position: 1}}
  count: {type: int, inputBinding: {position: 3}}
  order: "#direction"
outputs:
  first: stdout
stdout: first-$(inputs.order).txt
