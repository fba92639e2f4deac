cwlVersion: v1.2
class: Workflow
requirements: {InlineJavascriptRequirement: {}, StepInputExpressionRequirement: {}}
inputs: {name: string, fs: "File[]", path: File}
outputs: {o: {type: File, outputSource: t/o}, n: {type: int, outputSource: t/n}}
steps:
  t:
    run:
      class: CommandLineTool
      requirements: {InlineJavascriptRequirement: {}}
      baseCommand: echo
      inputs:
        n: {type: int, inputBinding: {position: 1}}
        m: {type: int, inputBinding: {position: 2}}
        s: {type: string, inputBinding: {position: 3, valueFrom: $(self.length)}}
        fs: {type: "File[]", inputBinding: {position: 4, valueFrom: $(self.length)}}
        path: {type: File, loadContents: true, inputBinding: {position: 5, valueFrom: $(inputs.path.contents.length)}}
      arguments: [{position: 9, valueFrom: $(inputs.s.length)}, {position: 10, valueFrom: "n$(inputs.fs.length)"}, {position: 11, valueFrom: $(inputs.path.basename)}]
      stdout: o
      outputs:
        o: stdout
        n: {type: int, outputBinding: {glob: o, loadContents: true, outputEval: "$(self[0].contents.length)"}}
    in:
      n: {source: name, valueFrom: $(self.length)}
      m: {source: fs, valueFrom: $(self.length)}
      s: name
      fs: fs
      path: path
    out: [o, n]
