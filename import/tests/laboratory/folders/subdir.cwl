cwlVersion: v1.2
class: CommandLineTool
requirements: {InitialWorkDirRequirement: {listing: [{entry: $(inputs.folder), entryname: work, writable: true}]}}
baseCommand: [sh, -c, "echo more > work/added; rm -f work/b.txt"]
inputs: {folder: Directory}
outputs: {dir: {type: Directory, outputBinding: {glob: work}}}
