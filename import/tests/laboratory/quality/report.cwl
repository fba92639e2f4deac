cwlVersion: v1.2
class: CommandLineTool
requirements:
  InlineJavascriptRequirement: {}
  InitialWorkDirRequirement: {listing: $(inputs.files)}
baseCommand: [multiqc, .]
inputs:
  files: File[]
  title: {type: string, inputBinding: {prefix: --title}}
  first: File
outputs:
  html: {type: File, outputBinding: {glob: "*.html", outputEval: "${ var f = self[0]; f.basename = inputs.title.replace(/[^\\w]+/g, '_') + f.nameext; return f; }"}}
  data: {type: Directory, outputBinding: {glob: multiqc_data}}
  names: {type: string, outputBinding: {glob: "*_trimmed.txt", outputEval: "$(self.map(function (f) { return f.nameroot; }).join(','))"}}
