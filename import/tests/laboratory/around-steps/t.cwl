cwlVersion: v1.2
class: CommandLineTool
baseCommand: [sh, -c, 'echo "$A $B $0 $1"']
arguments: [$(runtime.cores), $(runtime.ram)]
inputs: {n: string}
stdout: o$(inputs.n)
outputs: {o: stdout}
