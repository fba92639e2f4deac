cwlVersion: v1.2
class: Workflow
doc: Expressions say which files belong to those that go in, to the workflow and to the one inside of it.
requirements: {InlineJavascriptRequirement: {}, ScatterFeatureRequirement: {}, SubworkflowFeatureRequirement: {}, MultipleInputFeatureRequirement: {}}
inputs:
  bams:
    type: File[]
    secondaryFiles:
      - pattern: "${ return self.nameext === '.bam' ? self.basename + '.bai' : null; }"
        required: $(self.nameroot !== 'P_1')
  reference:
    type: File
    secondaryFiles: [.fai, "${ return [{class: 'File', location: self.location.replace(/\\.fa$/, '.dict'), basename: self.nameroot + '.dict'}]; }"]
  absent:
    type: File?
    secondaryFiles: ["$(self.basename + '.idx')"]
  panel:
    type: File
    secondaryFiles: ["${ var name = self.nameroot; return name + '.txt.idx'; }"]
    default: {class: File, path: ../data/one.txt}
outputs:
  panel: {type: File, outputSource: panel}
  told: {type: "File[]", outputSource: inner/told}
  names: {type: "string[]", outputSource: inner/names}
  given: {type: "File[]", outputSource: bams}
  first: {type: File, outputSource: [absent, reference], pickValue: first_non_null}
steps:
  inner:
    run: inner.cwl
    scatter: bam
    in: {bam: bams, reference: reference, others: {source: [bams, reference], linkMerge: merge_flattened}}
    out: [told, names]
