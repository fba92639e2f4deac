cwlVersion: v1.2
class: CommandLineTool
id: split_bam
requirements:
  - class: ShellCommandRequirement
  - class: InlineJavascriptRequirement
  - class: ResourceRequirement
    ramMin: $(inputs.max_memory * 1000)
    coresMin: $(inputs.cores)
baseCommand: ["/bin/bash", "-c"]
arguments:
  - position: 0
    shellQuote: true
    valueFrom: |-
      set -eo pipefail

      RG_NUM=`grep -c '^@' $(inputs.input_bam.path)` && if [ "$RG_NUM" != 1 ]; then
        cat $(inputs.input_bam.path) | head -n 4 > $(inputs.input_bam.nameroot).head
        ${
          var cmd = "";
          if (inputs.sort === true) { cmd = "sort " + inputs.input_bam.path + " > sorted.txt"; }
          else { cmd = "echo >&2 'Not sorting'"; }
          return cmd;
        }
      else
        ln -s $(inputs.input_bam.path) $(inputs.input_bam.nameroot).head
      fi
      echo "mem $(runtime.ram) cores $(runtime.cores)" > res.txt
inputs:
  input_bam: {type: 'File', secondaryFiles: [{pattern: ".bai", required: false}], doc: "x"}
  sort: { type: 'boolean?', default: false }
  max_memory: {type: 'int?', default: 3}
  cores: {type: 'int?', default: 2}
outputs:
  head: {type: 'File', outputBinding: {glob: '*.head'}}
  res: {type: File, outputBinding: {glob: res.txt}}
  sorted: {type: 'File?', outputBinding: {glob: 'sorted.txt'}}
