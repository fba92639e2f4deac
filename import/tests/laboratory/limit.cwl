cwlVersion: v1.2
class: CommandLineTool
requirements: {ToolTimeLimit: {timelimit: 30}, InlineJavascriptRequirement: {}}
baseCommand: [sh, -c, 'printf "{\"x\": 0.5, \"y\": [1, 2.0], \"f\": {\"class\": \"File\", \"path\": \"f.txt\"}, \"name\": \"text\"}" > cwl.output.json; echo f > f.txt']
inputs: {a: {type: File, default: {class: File, path: data/two.txt}}, b: {type: double, default: 1e-3}}
outputs: {x: float, y: {type: {type: array, items: double}}, f: File, name: {type: [double, string]}}
