cwlVersion: v1.2
class: CommandLineTool
requirements: {InlineJavascriptRequirement: {}}
baseCommand: cat
inputs: {files: {type: "File[]", inputBinding: {valueFrom: "$(self.map(function (f) { return f.path; }))"}}, name: string}
stdout: $(inputs.name).merged.fastq
outputs: {out: stdout}
