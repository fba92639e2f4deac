cwlVersion: v1.0
class: ExpressionTool
requirements: {InlineJavascriptRequirement: {}}
inputs:
  lists: {type: {type: array, items: {type: array, items: string}}}
  more: string[]
outputs: {out: Any}
expression: |
  ${ return {out: {"lists": inputs.lists, "more": inputs.more, "n": 1.5}}; }
