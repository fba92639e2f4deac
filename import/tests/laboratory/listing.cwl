cwlVersion: v1.2
class: CommandLineTool
requirements:
  InlineJavascriptRequirement: {}
baseCommand: echo
inputs:
  deep: {type: Directory, loadListing: deep_listing}
  shallow: {type: Directory, loadListing: shallow_listing}
  none: Directory
arguments:
  - $(JSON.stringify(inputs.deep.listing.map(function(f) {return [f.basename, f.listing === undefined];})))
  - $(JSON.stringify(inputs.shallow.listing.map(function(f) {return [f.basename, f.listing === undefined];})))
  - $(String(inputs.none.listing))
stdout: words.txt
outputs: {words: stdout}
