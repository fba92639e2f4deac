cwlVersion: v1.2
$graph:
- class: Workflow
  id: main
  doc: Scatters in scatters, conditions, and links that are merged and picked, over records and numbers with a fraction.
  requirements: {ScatterFeatureRequirement: {}, InlineJavascriptRequirement: {}, StepInputExpressionRequirement: {}, MultipleInputFeatureRequirement: {}, SubworkflowFeatureRequirement: {}}
  inputs:
    samples: {type: {type: array, items: {type: record, fields: {name: string, files: "File[]", skip: "boolean?"}}}}
    cuts: float[]
  outputs:
    all: {type: {type: array, items: ["null", {type: array, items: File}]}, outputSource: per/outs}
    kept: {type: {type: array, items: {type: array, items: File}}, outputSource: per/outs, pickValue: all_non_null}
    grid: {type: "string[]", outputSource: grid/s}
    nest: {type: {type: array, items: {type: array, items: string}}, outputSource: [grid/s, names/names], linkMerge: merge_nested}
    only: {type: string, outputSource: [skipped/s, one/s], pickValue: the_only_non_null}
    total: {type: double, outputSource: total/sum}
  steps:
    per:
      run: "#per"
      scatter: sample
      when: $(!inputs.sample.skip)
      in: {sample: samples, files: {valueFrom: $(inputs.sample.files)}, name: {valueFrom: "$(inputs.sample.name)"}, cuts: cuts}
      out: [outs]
    grid:
      run: "#say"
      scatter: [a, b]
      scatterMethod: flat_crossproduct
      in: {a: {source: samples, valueFrom: "$(self.name.toUpperCase())"}, b: cuts}
      out: [s]
    names: {run: "#collect", in: {samples: samples}, out: [names]}
    skipped: {run: "#say", when: "$(inputs.b > 100)", in: {a: {default: x}, b: {source: cuts, valueFrom: "$(Math.max.apply(null, self))"}}, out: [s]}
    one: {run: "#say", in: {a: {default: y}, b: {source: cuts, valueFrom: "$(self[1])"}, q: {default: 1.5}}, out: [s]}
    total: {run: "#sum", in: {xs: {source: [cuts, cuts], linkMerge: merge_flattened}}, out: [sum]}
- class: Workflow
  id: per
  requirements: {ScatterFeatureRequirement: {}, StepInputExpressionRequirement: {}, InlineJavascriptRequirement: {}}
  inputs: {files: "File[]", name: string, cuts: "float[]"}
  outputs: {outs: {type: "File[]", outputSource: head/o}}
  steps:
    head:
      run: "#head"
      scatter: [file, cut]
      scatterMethod: dotproduct
      in: {file: files, cut: {source: cuts}, name: {source: name, valueFrom: "$(self)_$(inputs.cut * 10)"}}
      out: [o]
- class: CommandLineTool
  id: head
  requirements: {InlineJavascriptRequirement: {}, ShellCommandRequirement: {}}
  arguments: [{shellQuote: false, valueFrom: "head -n $(Math.ceil(inputs.cut)) '$(inputs.file.path)'"}]
  inputs: {file: File, cut: float, name: string}
  stdout: $(inputs.name).$(inputs.file.nameext.slice(1))
  outputs: {o: stdout}
- class: ExpressionTool
  id: say
  requirements: {InlineJavascriptRequirement: {}}
  inputs: {a: string, b: float}
  outputs: {s: string}
  expression: "$({s: inputs.a + inputs.b.toFixed(2)})"
- class: ExpressionTool
  id: collect
  requirements: {InlineJavascriptRequirement: {}}
  inputs: {samples: Any}
  outputs: {names: "string[]"}
  expression: "${ return {names: inputs.samples.map(function (s) { return s.name + ':' + s.files.length; })}; }"
- class: CommandLineTool
  id: sum
  requirements: {InlineJavascriptRequirement: {}}
  baseCommand: [awk, "BEGIN { for (i = 1; i < ARGC; i++) s += ARGV[i]; print s }"]
  inputs: {xs: {type: "float[]", inputBinding: {}}}
  stdout: s
  outputs: {sum: {type: double, outputBinding: {glob: s, loadContents: true, outputEval: "$(parseFloat(self[0].contents))"}}}
