cwlVersion: v1.2
class: ExpressionTool
requirements: {InlineJavascriptRequirement: {}}
inputs: {t: string}
outputs: {text: string}
expression: '$({"text": inputs.t})'
