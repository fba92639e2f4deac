cwlVersion: v1.2
class: CommandLineTool
requirements: {ShellCommandRequirement: {}, InlineJavascriptRequirement: {}}
arguments: [{shellQuote: false, valueFrom: "find -L $(inputs.dir.path) -type f | wc -l > n.txt"}]
inputs: {dir: Directory}
outputs: {n: {type: int, outputBinding: {glob: n.txt, loadContents: true, outputEval: "$(parseInt(self[0].contents))"}}}
