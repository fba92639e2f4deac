cwlVersion: v1.0
class: CommandLineTool
label: reads by single or paired ends; names of outputs are made of names of inputs
requirements:
  - {class: InlineJavascriptRequirement}
  - {class: EnvVarRequirement, envDef: [{envName: TRIM_TITLE, envValue: "$(inputs.r1.basename.split('_')[0]) $(inputs.cut)"}, {envName: HOME, envValue: $(runtime.outdir)}]}
hints:
  - class: DockerRequirement
    dockerPull: quay.io/biocontainers/fastp:0.20.1--h8b12597_0
  - {class: ResourceRequirement, coresMin: 4, coresMax: 16}
baseCommand: fastp
arguments:
  - {prefix: --thread, valueFrom: "$(Math.min(runtime.cores, 16))"}
  - {prefix: --out1=, separate: false, valueFrom: "${ return inputs.r1.nameroot.replace('.fastq', '') + '.trim.fastq'; }"}
  - |
    ${
      if (inputs.r2) {
        return ["--in2", inputs.r2.path, "--out2=" + inputs.r2.nameroot + ".trim.fastq"];
      } else {
        return null;
      }
    }
  - --json=$(inputs.r1.nameroot).json
  - "--title='$(inputs.r1.basename)'"
inputs:
  r1: {type: File, inputBinding: {prefix: --in1}}
  r2: File?
  cut: {type: ["null", int, float], inputBinding: {prefix: --cut_mean, position: 3}}
  adapters:
    type: ["null", {type: array, items: string, inputBinding: {prefix: -a, itemSeparator: ","}}]
    inputBinding: {position: 4}
  correct: {type: boolean, default: false, inputBinding: {prefix: --correction, position: 5}}
  umi:
    type:
      - "null"
      - {type: record, name: umi, fields: [{name: loc, type: string, inputBinding: {prefix: --umi_loc}}, {name: len, type: int, inputBinding: {prefix: --umi_len}}]}
outputs:
  report: stdout
  env: {type: "string[]", outputBinding: {outputEval: "$([inputs.r1.nameext, String(inputs.r2 == null), typeof inputs.cut, inputs.umi ? inputs.umi.loc : 'no UMI'])"}}
stdout: "$(inputs.r1.nameroot)-$(inputs.r2 ? inputs.r2.nameroot : 'single').txt"
