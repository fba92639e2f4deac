cwlVersion: v1.2
class: CommandLineTool
doc: The read group is written with backslashes, from a record or from the name of the reads.
requirements:
  InlineJavascriptRequirement: {}
  SchemaDefRequirement:
    types:
      - name: group
        type: record
        fields:
          - {name: sample, type: string}
          - {name: library, type: "string?"}
          - name: platform
            type: {type: enum, name: platforms, symbols: [ILLUMINA, "PACBIO"]}
  ResourceRequirement: {coresMin: 2, coresMax: 8, ramMin: 1000}
  ToolTimeLimit: {timelimit: "$(60 * inputs.reads.length)"}
baseCommand: [bwa, mem, -M]
arguments:
  - prefix: -t
    valueFrom: $(runtime.cores)
  - prefix: -R
    valueFrom: |-
      ${
        var g = inputs.group === null ? {sample: inputs.reads[0].nameroot.replace(/^(.+)_R?[12]$/, "$1"), library: null, platform: "ILLUMINA"} : inputs.group;
        return ["@RG", "ID:" + g.sample, "LB:" + (g.library || "none"), "PL:" + g.platform].join("\\t");
      }
  - {prefix: -C, valueFrom: "@CO\\tfrom $(inputs.reads[0].nameroot)\\n\\$(kept)"}
inputs:
  group: "#group?"
  reference:
    type: File
    secondaryFiles: [".fai", "^.dict"]
    inputBinding: {position: 1}
  reads: {type: "File[]", inputBinding: {position: 2}}
  mismatch: {type: double, default: 4.0, inputBinding: {prefix: -B}}
stdout: ${ return inputs.reads.map(function (f) { return f.nameroot; }).join("+") + ".sam"; }
stderr: $(inputs.reads[0].nameroot).log
outputs:
  sam: stdout
  log: stderr
  name: {type: string, outputBinding: {outputEval: "$(inputs.reads[0].basename.match(/_(\\d+)/)[1])"}}
