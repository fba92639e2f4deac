cwlVersion: v1.2
class: ExpressionTool
requirements: {InlineJavascriptRequirement: {}}
inputs: {f: {type: File, loadContents: true}, k: int}
outputs: {s: string}
expression: "$({s: inputs.f.contents.split('\\n')[0] + inputs.k})"
