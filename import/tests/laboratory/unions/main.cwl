cwlVersion: v1.0
class: CommandLineTool
doc: Inputs of several types, literals in the working folder, and names of streams and patterns that are made.
requirements:
  - class: InlineJavascriptRequirement
  - class: InitialWorkDirRequirement
    listing:
      - {class: Directory, basename: lit, listing: [{class: File, basename: a.txt, contents: "A $(1)\n"}]}
      - {class: File, basename: lit.txt, contents: "L\n"}
      - entryname: sub/deep/$(inputs.reads[0].basename)
        entry: $(inputs.reads[0])
        writable: true
      - "${ return [{class: 'File', basename: 'gen.tsv', contents: inputs.reads.map(function (f) { return f.nameroot + '\\t' + f.location.split('/').pop(); }).join('\\n')}]; }"
baseCommand: [bwa, aln]
inputs:
  reads: {type: [File, {type: array, items: File}], inputBinding: {position: 1, prefix: --reads, itemSeparator: ","}}
  what: {type: [File, Directory, string], inputBinding: {position: 2}}
  opts: {type: ["null", {type: array, items: [int, float, string]}], inputBinding: {position: 3, prefix: --opt, separate: false, itemSeparator: " "}}
  flag: {type: [boolean, string], inputBinding: {position: 4, prefix: --flag}}
  nums: {type: {type: array, items: double, inputBinding: {prefix: -n, separate: false}}, inputBinding: {position: 5}}
arguments:
  - {position: 6, valueFrom: "$(inputs.what.class === undefined ? inputs.what.length : inputs.what.dirname === undefined ? 'none' : 'dir')"}
  - {position: 7, valueFrom: "$(runtime.outdirSize)"}
stdout: ${ return "out/" + inputs.reads.length + ".txt"; }
stderr: err.log
outputs:
  o: stdout
  e: {type: string, outputBinding: {glob: err.log, loadContents: true, outputEval: "$(self[0].contents.trim())"}}
  lit: {type: Directory, outputBinding: {glob: lit}}
  some: {type: "File[]?", outputBinding: {glob: "${ return ['*.tsv', 'lit.txt', 'nothing*']; }", outputEval: "$(self.sort(function (a, b) { return a.basename < b.basename ? 1 : -1; }))"}}
  none: {type: "File?", outputBinding: {glob: "nothing*"}}
  deep: {type: File, outputBinding: {glob: "sub/*/*.fastq"}}
  len: {type: "int?", outputBinding: {glob: lit, outputEval: "$(self[0].listing ? self[0].listing.length : -1)"}}
