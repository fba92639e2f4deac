cwlVersion: v1.2
class: Workflow
doc: JavaScript in steps, an ExpressionTool, and a scattered tool with JavaScript.
requirements:
  InlineJavascriptRequirement: {}
  StepInputExpressionRequirement: {}
  ScatterFeatureRequirement: {}
  MultipleInputFeatureRequirement: {}
  EnvVarRequirement:
    envDef: {GREETING: "$(inputs.word)"}
inputs:
  top: int
  name: string
outputs:
  said: {type: "string[]", outputSource: say/out}
  less: {type: string?, outputSource: few/out, pickValue: first_non_null}
  none: {type: string?, outputSource: many/out}
  numbers: {type: "int[]", outputSource: list/numbers}
steps:
  list:
    run:
      class: ExpressionTool
      inputs: {most: {type: int, default: 9}}
      outputs: {numbers: "int[]"}
      expression: "${ var found = []; for (var i = 1; i <= inputs.most; i++) { found.push(i * i); } return {numbers: found}; }"
    in: {most: top}
    out: [numbers]
  say:
    run: &say
      class: CommandLineTool
      inputs: {word: string, number: int?}
      outputs: {out: {type: string, outputBinding: {glob: out.txt, loadContents: true, outputEval: "$(self[0].contents.trim() + '!')"}}}
      baseCommand: [sh, -c]
      arguments: ['echo "$GREETING" "$0"', "$(inputs.number + 1)"]
      stdout: out.txt
    scatter: number
    in: {word: name, number: list/numbers}
    out: [out]
  few:
    run: *say
    when: $(inputs.number < 5 && inputs.word !== "")
    in:
      number: {source: [top, top], valueFrom: "$(self[0] + self[1] - 2)"}
      word: {valueFrom: "$(inputs.other.toUpperCase())"}
      other: name
    out: [out]
  many:
    run: *say
    when: $(inputs.number > 5)
    in: {number: top, word: name}
    out: [out]
