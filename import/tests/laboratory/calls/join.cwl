cwlVersion: v1.2
class: CommandLineTool
requirements: {InlineJavascriptRequirement: {}, InitialWorkDirRequirement: {listing: "${ return inputs.vcfs.map(function (f, i) { return {entry: f, entryname: 'v' + i + '_' + f.basename}; }); }"}}
baseCommand: [gatk, MergeVcfs]
inputs:
  vcfs: {type: {type: array, items: File, inputBinding: {prefix: -V, valueFrom: $(self.basename)}}}
  name: {type: string, inputBinding: {prefix: -O, position: 2}}
outputs:
  vcf: {type: File, secondaryFiles: [.idx], outputBinding: {glob: $(inputs.name)}}
  text: {type: string, outputBinding: {outputEval: "$(inputs.vcfs.length + ' of ' + inputs.name)"}}
