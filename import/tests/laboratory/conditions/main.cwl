cwlVersion: v1.2
class: Workflow
requirements: {InlineJavascriptRequirement: {}, StepInputExpressionRequirement: {}, MultipleInputFeatureRequirement: {}, ScatterFeatureRequirement: {}, SubworkflowFeatureRequirement: {}}
inputs:
  reads: File[]
  min_size: {type: int, default: 400}
  mode: {type: {type: enum, symbols: [fast, slow]}, default: fast}
  skip: {type: boolean?}
outputs:
  kept: {type: "File[]", outputSource: filter/out, pickValue: all_non_null}
  sole: {type: File, outputSource: [fast/out, slow/out], pickValue: the_only_non_null}
  first: {type: "string?", outputSource: [none/text, dflt/text], pickValue: first_non_null}
  nothing: {type: File?, outputSource: never/out}
  all: {type: "Any", outputSource: filter/out}
steps:
  filter:
    run: copy.cwl
    scatter: f
    when: $(inputs.f.size > inputs.min_size)
    in:
      f: reads
      min_size: min_size
      name: {valueFrom: "$('kept_' + inputs.f.basename)"}
    out: [out]
  fast:
    run: copy.cwl
    when: $(inputs.mode == "fast")
    in: {f: {source: reads, valueFrom: "$(self[0])"}, name: {default: fast.txt}, mode: mode}
    out: [out]
  slow:
    run: copy.cwl
    when: $(inputs.mode == "slow")
    in: {f: {source: reads, valueFrom: "$(self[1])"}, name: {default: slow.txt}, mode: mode}
    out: [out]
  never:
    run: copy.cwl
    when: $(inputs.skip === true)
    in: {f: {source: reads, valueFrom: "$(self[0])"}, name: {default: never.txt}, skip: skip}
    out: [out]
  none:
    run: text.cwl
    when: $(false)
    in: {t: {default: none}}
    out: [text]
  dflt:
    run: text.cwl
    in: {t: {source: mode, valueFrom: "$(self.toUpperCase())"}}
    out: [text]
