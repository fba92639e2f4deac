cwlVersion: v1.2
class: ExpressionTool
requirements: {InlineJavascriptRequirement: {}, LoadListingRequirement: {loadListing: shallow_listing}}
inputs: {folder: Directory, pattern: string}
outputs: {files: "File[]"}
expression: |
  ${
    var out = inputs.folder.listing.filter(function (f) { return f["class"] == "File" && f.nameext == inputs.pattern; });
    out.sort(function (a, b) { return a.basename < b.basename ? -1 : 1; });
    return {"files": out};
  }
