cwlVersion: v1.2
class: CommandLineTool
requirements: {InlineJavascriptRequirement: {}}
baseCommand: [gatk, VariantFiltration]
arguments: [-O, $(inputs.vcf.nameroot).filtered.vcf]
inputs:
  reference: {type: File, secondaryFiles: [.fai, ^.dict], inputBinding: {prefix: -R}}
  vcf: {type: File, secondaryFiles: [.idx], inputBinding: {prefix: -V}}
  rules:
    type:
      type: array
      items:
        type: record
        name: rule
        fields:
          name: {type: string, inputBinding: {prefix: --filter-name, position: 2}}
          expression: {type: string, inputBinding: {prefix: --filter-expression, position: 1, valueFrom: "$(self + (inputs.rules.length > 1 ? ' && QD > 2.0' : ''))"}}
          cut: {type: float?, inputBinding: {prefix: --cut, position: 3}}
outputs:
  vcf: {type: File, secondaryFiles: [.idx], outputBinding: {glob: "*.filtered.vcf"}}
