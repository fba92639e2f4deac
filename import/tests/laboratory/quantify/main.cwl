cwlVersion: v1.1
class: CommandLineTool
doc: A library is paired or single, which two records say; the folder of results comes whole, and its figures as numbers.
requirements:
  - class: InlineJavascriptRequirement
  - class: LoadListingRequirement
    loadListing: deep_listing
hints:
  - class: DockerRequirement
    dockerPull: combinelab/salmon:1.4.0
  - class: ResourceRequirement
    coresMin: 4
baseCommand: [salmon, quant]
arguments:
  - {prefix: -p, valueFrom: $(runtime.cores)}
  - {prefix: -o, valueFrom: "$(inputs.name ? inputs.name : inputs.library.name)_quant", position: 9}
inputs:
  index: {type: Directory, inputBinding: {prefix: --index}}
  library:
    inputBinding: {position: 2}
    type:
      - type: record
        name: paired
        fields:
          - {name: mates1, type: "File[]", inputBinding: {prefix: "-1", position: 1}}
          - {name: mates2, type: "File[]", inputBinding: {prefix: "-2", position: 2}}
          - {name: kind, type: {type: enum, symbols: [ISR, IU]}, inputBinding: {prefix: -l, position: 0}}
      - type: record
        name: single
        fields:
          - {name: unmated, type: File, inputBinding: {prefix: -r}}
          - {name: name, type: string}
  name: string?
  fraction: {type: double, default: 0.65, inputBinding: {prefix: --minScoreFraction, position: 3}}
  seeds: {type: "int[]?", inputBinding: {prefix: --seeds, itemSeparator: ",", position: 4}}
  flags:
    type: {type: array, items: string, inputBinding: {prefix: --, separate: false}}
    default: [gcBias]
    inputBinding: {position: 5}
outputs:
  folder: {type: Directory, outputBinding: {glob: "*_quant"}}
  table: {type: File, outputBinding: {glob: "*_quant/quant.sf", outputEval: '${ self[0].basename = self[0].nameroot + "." + inputs.index.basename + self[0].nameext; return self[0]; }'}}
  rate: {type: float, outputBinding: {glob: "*_quant/aux_info/meta_info.json", loadContents: true, outputEval: '$(JSON.parse(self[0].contents)["rate"])'}}
  entries: {type: "string[]", outputBinding: {outputEval: "$(inputs.index.listing.map(function (it) { return it.class + ' ' + it.basename; }).sort())"}}
  figures:
    type:
      type: record
      fields:
        half: {type: double, outputBinding: {outputEval: $(inputs.fraction / 2)}}
        sums: {type: File, outputBinding: {glob: "*_quant/quant.sf"}}
        kinds: {type: "string[]", outputBinding: {outputEval: "${ return Object.keys(inputs.library).sort(); }"}}
