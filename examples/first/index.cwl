cwlVersion: v1.2
class: CommandLineTool
doc: Indexes a genome as `samtools faidx` does. The index stands beside it, as genome.fa.fai.
baseCommand: [sh, -c]
arguments:
  - valueFrom: |
      cp "$0" genome.fa
      awk '/^>/ { if (name) print name, bases, start, width, width + 1
                  name = substr($1, 2); bases = 0; width = 0; start = at + length + 1 }
           !/^>/ { bases += length; if (!width) width = length }
           { at += length + 1 }
           END { print name, bases, start, width, width + 1 }' OFS='\t' genome.fa > genome.fa.fai
inputs:
  genome: {type: File, inputBinding: {position: 1}}
outputs:
  indexed:
    type: File
    outputBinding: {glob: genome.fa}
    secondaryFiles: [.fai]
