cwlVersion: v1.0
class: CommandLineTool
doc: Functions are given all inputs, and name some.
requirements:
  - class: InlineJavascriptRequirement
    expressionLib:
      - |
        var setMetadata = function(file, metadata) {
          if (!('metadata' in file)) file['metadata'] = metadata;
          else { for (var key in metadata) { file['metadata'][key] = metadata[key]; } }
          return file;
        };
        function sizes(inputs) {
          var s = 0;
          inputs.files.forEach(function (f) { s += f.size; });
          return s;
        }
        function here() { return inputs.files.length; }
baseCommand: [bash, -c]
arguments: ["echo $(sizes(inputs)) $(here()) ${ var all = [].concat(inputs.files); return all.map(function (f) { return f.basename; }).join(); }"]
inputs: {files: "File[]", n: int?}
stdout: $(here())_out.txt
outputs:
  o: {type: File, outputBinding: {glob: "*_out.txt", outputEval: "$(self)"}}
  files: {type: "File[]", outputBinding: {outputEval: "$(inputs.files)"}}
