cwlVersion: v1.2
class: Workflow
label: groups files by sample with ExpressionTools in the middle
requirements: {InlineJavascriptRequirement: {}, ScatterFeatureRequirement: {}, StepInputExpressionRequirement: {}, SubworkflowFeatureRequirement: {}}
inputs: {files: "File[]"}
outputs:
  merged: {type: "File[]", outputSource: merge/out}
  pairs: {type: "Any", outputSource: group/names}
  big: {type: File, outputSource: pick/biggest}
steps:
  group:
    run:
      class: ExpressionTool
      inputs: {files: "File[]"}
      outputs:
        groups: {type: {type: array, items: {type: array, items: File}}}
        names: string[]
      expression: |
        ${
          var by = {};
          for (var i in inputs.files) { var f = inputs.files[i]; var k = f.basename.split("_")[0]; (by[k] = by[k] || []).push(f); }
          var names = Object.keys(by).sort();
          return {"groups": names.map(function (n) { return by[n]; }), "names": names};
        }
    in: {files: files}
    out: [groups, names]
  merge:
    run: merge.cwl
    scatter: [files, name]
    scatterMethod: dotproduct
    in: {files: group/groups, name: group/names}
    out: [out]
  pick:
    run: pick.cwl
    in: {files: merge/out}
    out: [biggest]
