cwlVersion: v1.2
class: CommandLineTool
requirements:
  InlineJavascriptRequirement: {}
  ResourceRequirement: {coresMin: 2, ramMin: $(30 * 1024)}
  InitialWorkDirRequirement:
    listing:
      - entry: '$({class: "Directory", basename: inputs.name, listing: []})'
        writable: true
baseCommand: [STAR, --runMode, genomeGenerate]
arguments: [--runThreadN, $(runtime.cores), --limitGenomeGenerateRAM, "$(runtime.ram * 1048576)", --genomeDir, $(runtime.outdir)/$(inputs.name)]
inputs:
  fasta: {type: File, inputBinding: {prefix: --genomeFastaFiles}}
  overhang: {type: int, inputBinding: {prefix: --sjdbOverhang}}
  name: string
outputs:
  folder: {type: Directory, outputBinding: {glob: $(inputs.name)}}
