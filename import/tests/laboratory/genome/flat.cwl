cwlVersion: v1.2
class: ExpressionTool
requirements: {InlineJavascriptRequirement: {}}
inputs: {nested: {type: {type: array, items: {type: array, items: File}}}}
outputs: {files: "File[]"}
expression: "$({files: inputs.nested.reduce(function (a, b) { return a.concat(b); }, [])})"
