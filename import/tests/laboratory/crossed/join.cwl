cwlVersion: v1.0
class: ExpressionTool
requirements: {InlineJavascriptRequirement: {}}
inputs: {words: "string[]", sep: string}
outputs: {text: string}
expression: '$({"text": inputs.words.join(inputs.sep)})'
