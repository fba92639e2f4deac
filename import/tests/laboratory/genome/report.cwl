cwlVersion: v1.2
class: CommandLineTool
requirements:
  InlineJavascriptRequirement: {}
  InitialWorkDirRequirement:
    listing:
      - entry: "${ return {class: 'Directory', basename: 'given', listing: inputs.files}; }"
      - entryname: multiqc_config.yaml
        entry: |
          title: "$(inputs.title)"
          n: $(inputs.files.length)
          path: \${HOME}
baseCommand: [multiqc, --config, multiqc_config.yaml, -o, made, given]
inputs: {files: "File[]", title: string}
outputs: {folder: {type: Directory, outputBinding: {glob: made}}}
