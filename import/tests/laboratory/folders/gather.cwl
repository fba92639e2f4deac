cwlVersion: v1.2
class: ExpressionTool
requirements: {InlineJavascriptRequirement: {}}
inputs: {files: "File[]", sub: "File[]", name: string}
outputs: {dir: Directory}
expression: |
  ${
    return {"dir": {"class": "Directory", "basename": inputs.name,
      "listing": inputs.files.concat([{"class": "Directory", "basename": "notes", "listing": inputs.sub}, {"class": "File", "basename": "n.txt", "contents": "n=" + inputs.files.length}])}};
  }
