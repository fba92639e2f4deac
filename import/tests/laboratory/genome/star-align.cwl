cwlVersion: v1.2
class: CommandLineTool
requirements:
  InlineJavascriptRequirement: {}
  SchemaDefRequirement: {types: [{$import: pair.yml}]}
hints:
  SoftwareRequirement: {packages: {star: {version: ["2.7.5c"]}}}
baseCommand: STAR
arguments:
  - prefix: --readFilesIn
    position: 2
    valueFrom: "${ return [inputs.pair.forward].concat(inputs.pair.reverse ? [inputs.pair.reverse] : []).map(function (f) { return f.path; }); }"
  - {position: 3, valueFrom: "${ if (inputs.unpack && inputs.unpack != 'cat') { return ['--readFilesCommand', inputs.unpack]; } return []; }"}
inputs:
  index: {type: Directory, inputBinding: {prefix: --genomeDir, position: 1}}
  pair: pair.yml#pair
  ratio: {type: float?, inputBinding: {prefix: --outFilterMismatchNoverLmax, position: 4}}
  unpack: string?
  prefix: {type: string, inputBinding: {prefix: --outFileNamePrefix, position: 5}}
  strand: {type: string, inputBinding: {prefix: "--outSAMstrandField=", separate: false, position: 6}}
outputs:
  bam: {type: File, outputBinding: {glob: "$(inputs.prefix)Aligned*.bam", outputEval: "${ self[0].basename = inputs.pair.name + '.bam'; return self; }"}}
  logs: {type: "File[]", outputBinding: {glob: ["$(inputs.prefix)Log.*", "$(inputs.prefix)*.tab"]}}
