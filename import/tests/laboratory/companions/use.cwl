cwlVersion: v1.1
class: CommandLineTool
requirements: [{class: InlineJavascriptRequirement}]
baseCommand: [python3, -c, "import sys,os\nfor p in sys.argv[1:]: print(os.path.basename(p), os.path.exists(p), os.path.exists(p + '.bai'), os.path.exists(p + '.fai'))"]
inputs:
  bam: {type: File, secondaryFiles: [.bai], inputBinding: {position: 1}}
  ref: {type: File, secondaryFiles: ["^.dict", ".fai"], inputBinding: {position: 2}}
  all: {type: "File[]", secondaryFiles: [.bai], inputBinding: {position: 3, valueFrom: "$(self.map(function (f) { return f.path; }))"}}
arguments: [{position: 4, valueFrom: "$(inputs.bam.secondaryFiles[0].path)"}]
stdout: $(inputs.bam.nameroot).txt
outputs: {o: stdout}
