cwlVersion: v1.2
class: CommandLineTool
requirements:
  InlineJavascriptRequirement: {}
  ResourceRequirement: {ramMin: "$(1000 + inputs.bam.size)", coresMin: 2}
  EnvVarRequirement: {envDef: {JAVA_OPTIONS: "$('-Xmx' + Math.floor(runtime.ram / 1000) + 'g')"}}
  WorkReuse: {enableReuse: true}
  NetworkAccess: {networkAccess: false}
baseCommand: [gatk]
arguments:
  - {position: -2, prefix: --java-options, valueFrom: "-Xmx$(Math.floor(runtime.ram / 1000))g"}
  - {position: -1, valueFrom: HaplotypeCaller}
  - {position: 9, prefix: -O, valueFrom: $(inputs.out)}
inputs:
  reference: {type: File, secondaryFiles: [.fai, ^.dict], inputBinding: {prefix: -R}}
  bam: {type: File, secondaryFiles: [.bai], inputBinding: {prefix: -I, position: 1}}
  region: {type: ["null", string, {type: array, items: string, inputBinding: {prefix: -L}}], inputBinding: {position: 2, prefix: -L}}
  min_qual: {type: double, inputBinding: {position: 3, prefix: "-stand-call-conf=", separate: false}}
  panel: {type: File?, secondaryFiles: [.idx], inputBinding: {position: 4, prefix: --panel}}
  out: {type: string, default: out.vcf}
outputs:
  vcf: {type: File, secondaryFiles: ["$(self.basename + '.idx')"], outputBinding: {glob: $(inputs.out)}}
