cwlVersion: v1.0
class: CommandLineTool
requirements:
  - class: InlineJavascriptRequirement
  - class: ResourceRequirement
    coresMin: $(inputs.threads)
    coresMax: 8
    ramMin: $(inputs.threads * 1001)
  - class: EnvVarRequirement
    envDef: [{envName: WORDS, envValue: "$(inputs.folder.listing.length + ' entries')"}]
baseCommand: [sh, -c, 'printf "%s\n" "$WORDS" "$@"', sh]
inputs: {threads: int, folder: Directory, text: string?}
arguments:
  - a\$(inputs.threads)\b\\c$(inputs.threads)\n
  - "$(runtime.cores) $(runtime.ram) $(runtime.tmpdirSize) $(runtime.outdirSize)"
  - $(runtime.ram / runtime.cores)
  - {prefix: --none, valueFrom: $(inputs.text)}
  - {prefix: --list=, separate: false, valueFrom: "$(['a', 'b'])"}
  - {prefix: --joined, itemSeparator: ";", valueFrom: "$([1, 2.5, true])"}
  - {prefix: --yes, valueFrom: $(true)}
  - {prefix: --no, valueFrom: $(false)}
  - plain\backslash
stdout: words.txt
outputs: {words: stdout}
