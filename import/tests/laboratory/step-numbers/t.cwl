cwlVersion: v1.2
class: CommandLineTool
requirements: {InlineJavascriptRequirement: {}}
baseCommand: [echo]
inputs: {x: {type: Any, inputBinding: {position: 1}}, y: {type: double, inputBinding: {position: 2}}, n: "int?"}
arguments: [{valueFrom: "$(typeof inputs.x + ' ' + typeof inputs.y)", position: 3}]
stdout: o.txt
outputs: {o: {type: string, outputBinding: {glob: o.txt, loadContents: true, outputEval: "$(self[0].contents)"}}}
