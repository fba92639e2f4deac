cwlVersion: v1.0
class: CommandLineTool
hints: {ResourceRequirement: {coresMin: 7, ramMin: 99}, EnvVarRequirement: {envDef: {A: tool}}}
baseCommand: [sh, -c, 'echo "$A $B $0 $1"']
arguments: [$(runtime.cores), $(runtime.ram)]
inputs: {n: string}
stdout: o$(inputs.n)
outputs: {o: stdout}
