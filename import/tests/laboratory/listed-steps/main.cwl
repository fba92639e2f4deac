cwlVersion: v1.2
class: Workflow
label: what valueFrom of a step is about is listed, whatever the version
requirements: {InlineJavascriptRequirement: {}, StepInputExpressionRequirement: {}, ScatterFeatureRequirement: {}}
inputs: {folder: Directory, names: "string[]"}
outputs:
  told: {type: "string[]", outputSource: tell/told}
  texts: {type: "string[]", outputSource: each/text}
steps:
  tell:
    run:
      class: ExpressionTool
      inputs: {names: "string[]", first: File, bare: Directory}
      outputs: {told: "string[]"}
      expression: "${ return {told: inputs.names.concat([inputs.first.basename, typeof inputs.bare.listing])}; }"
    in:
      names: {source: folder, valueFrom: "$(self.listing.map(function (it) { return it.class + ' ' + it.basename; }).sort())"}
      first: {source: folder, valueFrom: "$(self.listing.filter(function (it) { return it.class == 'File'; }).sort(function (a, b) { return a.basename < b.basename ? -1 : 1; })[0])"}
      bare: folder
    out: [told]
  each:
    run:
      class: ExpressionTool
      inputs: {text: string}
      outputs: {text: string}
      expression: "$({text: inputs.text})"
    scatter: name
    in: {name: names, text: {source: folder, valueFrom: "$(inputs.name + self.listing.length)"}}
    out: [text]
