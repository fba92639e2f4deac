cwlVersion: v1.2
class: CommandLineTool
doc: The share of G and C in each region of a list. The index says how long each sequence is.
baseCommand: awk
arguments:
  - valueFrom: |
      FILENAME ~ /\.fai$/ { long[$1] = $2; next }
      FILENAME ~ /\.fa$/ { if (/^>/) name = substr($1, 2); else bases[name] = bases[name] $0; next }
      !($1 in long) || $3 > long[$1] { print "outside of the genome: " $0 > "/dev/stderr"; exit 1 }
      { part = substr(bases[$1], $2 + 1, $3 - $2)
        printf "%s:%d-%d\t%.3f\n", $1, $2, $3, gsub(/[GC]/, "", part) / ($3 - $2) }
  - $(inputs.genome.path).fai
  - $(inputs.genome.path)
  - $(inputs.regions.path)
inputs:
  genome: {type: File, secondaryFiles: [.fai]}
  regions: File
outputs:
  shares: stdout
stdout: $(inputs.regions.nameroot).tsv
