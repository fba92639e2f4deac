cwlVersion: v1.2
class: CommandLineTool
doc: Fields of records ask for the files beside theirs.
requirements:
  InlineJavascriptRequirement: {}
  SchemaDefRequirement:
    types:
      - type: record
        name: sample
        fields:
          - name: bam
            type: File
            secondaryFiles: [.bai]
            inputBinding: {prefix: -I, position: 1}
          - name: ref
            type: File?
            secondaryFiles: ["$(self.basename + '.fai')", "^.dict"]
          - {name: tag, type: "string?", inputBinding: {prefix: --tag, position: 2}}
          - {name: notes, type: "File?", loadContents: true}
baseCommand: [samtools, cram]
inputs:
  samples: {type: {type: array, items: sample}}
  one: sample
arguments:
  - {valueFrom: "${ return inputs.samples.map(function (s) { return s.bam.basename + ':' + (s.bam.secondaryFiles || []).length + ':' + (s.ref ? s.ref.secondaryFiles.map(function (f) { return f.basename; }).sort().join('+') : 'none'); }); }", position: 5}
  - {valueFrom: "$(inputs.one.bam.secondaryFiles[0].path)", position: 6}
  - {valueFrom: "${ return [inputs.one].concat(inputs.samples).map(function (s) { return s.notes ? s.notes.contents.trim() : '-'; }); }", position: 7}
stdout: out.txt
outputs: {o: stdout}
