cwlVersion: v1.0
class: CommandLineTool
label: an input is called format, and so is a field of a record
$namespaces: {edam: "http://edamontology.org/"}
requirements: {InlineJavascriptRequirement: {}}
baseCommand: [echo]
inputs:
  format: {type: {type: enum, symbols: [bam, sam]}, default: sam, inputBinding: {prefix: --format}}
  file: {type: File, format: edam:format_2572}
  options: {type: ["null", {type: record, name: o, fields: {format: string, level: int}}]}
arguments: ["$(inputs.format.toUpperCase())", "$(inputs['format'])", "${ return inputs.format === 'bam' ? '-h' : null; }", "$(inputs.options.format + inputs.options.level)", $(inputs.options.format)]
stdout: out.$(inputs.format)
outputs:
  out: stdout
  same: {type: File, format: $(inputs.file.format), outputBinding: {glob: "*.$(inputs.format)"}}
