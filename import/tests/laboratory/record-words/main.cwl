cwlVersion: v1.0
class: CommandLineTool
requirements:
  - class: InlineJavascriptRequirement
  - class: SchemaDefRequirement
    types:
      - type: record
        name: paired
        fields:
          forward: {type: File, inputBinding: {prefix: --fwd, position: 1}}
          reverse: {type: File?, inputBinding: {prefix: --rev, position: 2}}
          sid: {type: string, inputBinding: {prefix: --id=, separate: false, position: 0}}
      - type: enum
        name: strand
        symbols: [none, forward, reverse]
baseCommand: [python3, -c, "import sys,os;print([os.path.basename(a) if '/' in a else a for a in sys.argv[1:]])"]
inputs:
  lib:
    type: paired
    inputBinding: {position: 3}
  libs:
    type: paired[]?
    inputBinding: {position: 5}
  strand: {type: strand?, inputBinding: {prefix: --strand, position: 1}}
  either:
    type:
      - type: record
        name: single
        fields:
          - name: bam
            type: File
            inputBinding: {prefix: --bam}
      - type: record
        name: pair
        fields:
          - name: left
            type: string
            inputBinding: {prefix: --left}
          - name: right
            type: float
            inputBinding: {prefix: --right}
    inputBinding: {position: 9}
stdout: args.txt
outputs:
  args: stdout
  info:
    type:
      type: record
      fields:
        - name: log
          type: File
          outputBinding: {glob: args.txt}
        - name: sid
          type: string
          outputBinding: {outputEval: $(inputs.lib.sid)}
        - name: x
          type: float?
          outputBinding: {outputEval: "$(1/4)"}
