cwlVersion: v1.0
class: CommandLineTool
requirements:
  - class: InlineJavascriptRequirement
    expressionLib:
    - var get_output_filename = function(ext) {
        if (inputs.output_filename == ""){
          var root = inputs.files[0].basename.split('.').slice(0,-1).join('.');
          return (root == "")?inputs.files[0].basename+ext:root+ext;
        }
        return inputs.output_filename;
      };
  - class: EnvVarRequirement
    envDef:
      - {envName: MODE, envValue: $(inputs.mode || "none")}
hints:
- class: DockerRequirement
  dockerPull: biowardrobe2/scidap:v0.0.3
inputs:
  script:
    type: string?
    default: |
      #!/bin/bash
      shopt -s nocaseglob
      FILES="$@"
      echo "Files: $#"
      for f in "$@"; do
        echo `basename $f`
        wc -l < "$f" | tr -d ' '
      done
      echo "mode ${MODE} $0"
    inputBinding: {position: 1}
  files: {type: "File[]", inputBinding: {position: 3}}
  output_filename: {type: string?, default: ""}
  mode: string?
outputs:
  out:
    type: File
    outputBinding:
      glob: $(get_output_filename(".counts.txt"))
  stats:
    type: string[]
    outputBinding:
      loadContents: true
      glob: $(get_output_filename(".counts.txt"))
      outputEval: |
        ${
          var res = self[0].contents.split(/\r?\n/).filter(function (l) { return l.match(/^[0-9]+$/); });
          return res;
        }
baseCommand: [bash, '-c']
arguments:
- valueFrom: "me"
  position: 2
stdout: $(get_output_filename(".counts.txt"))
$namespaces:
  s: http://schema.org/
s:name: "x"
s:isPartOf:
  class: s:CreativeWork
  s:name: Common Workflow Language
doc: |
  Counts.
