cwlVersion: v1.0
class: CommandLineTool
doc: Sorts and indexes in one command; threads and memory come from what is asked for, the index from an expression.
requirements:
  - class: InlineJavascriptRequirement
    expressionLib:
      - "function stem(f) { return f.basename.replace(/(\\.unsorted)?\\.[bs]am$/, ''); }"
  - class: ShellCommandRequirement
  - class: ResourceRequirement
    coresMin: 3
    ramMin: "$(inputs.bam.size < 1000 ? 3000 : 64000)"
hints:
  - {class: DockerRequirement, dockerPull: "biocontainers/samtools:1.9"}
baseCommand: [samtools, sort]
arguments:
  - {prefix: -@, valueFrom: $(runtime.cores - 1), position: -1}
  - {prefix: -m, valueFrom: "$(Math.floor(runtime.ram / runtime.cores))M", position: -1}
  - {prefix: -T, valueFrom: $(runtime.tmpdir)/part, position: 0}
  - {prefix: -o, valueFrom: "$(stem(inputs.bam)).bam", position: 2}
  - {valueFrom: "&& samtools index", shellQuote: false, position: 3}
  - {valueFrom: "$(stem(inputs.bam)).bam", position: 4}
  - {valueFrom: "2>&1 > $(stem(inputs.bam) + '.log') || exit 3", shellQuote: false, position: 5}
inputs:
  bam: {type: File, inputBinding: {position: 1}}
  by_name: {type: boolean?, inputBinding: {position: 0, prefix: -n}}
  level: {type: "float?", inputBinding: {position: 0, prefix: -l}}
outputs:
  sorted:
    type: File
    format: edam:format_2572
    secondaryFiles: ["${ return {class: 'File', path: self.path + '.bai', basename: self.basename + '.bai'}; }"]
    outputBinding: {glob: "$(stem(inputs.bam)).bam"}
  log: {type: File, outputBinding: {glob: "${ return stem(inputs.bam) + '.log'; }"}}
  bytes: {type: int, outputBinding: {glob: "*.bam", outputEval: "$(self[0].size)"}}
$namespaces: {edam: "http://edamontology.org/"}
