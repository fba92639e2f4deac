{
  "cwlVersion": "v1.0",
  "$graph": [
    {"class": "Workflow", "id": "#main",
     "requirements": [{"class": "ScatterFeatureRequirement"}, {"class": "SubworkflowFeatureRequirement"}, {"class": "StepInputExpressionRequirement"}, {"class": "InlineJavascriptRequirement"}],
     "inputs": [{"id": "#main/reads", "type": {"type": "array", "items": "File"}}, {"id": "#main/cut", "type": "float", "default": 0.5}],
     "outputs": [{"id": "#main/out", "type": {"type": "array", "items": "File"}, "outputSource": "#main/each/out"}, {"id": "#main/total", "type": "int", "outputSource": "#main/sum/total"}],
     "steps": [
       {"id": "#main/each", "run": "#inner", "scatter": "#main/each/read", "in": [{"id": "#main/each/read", "source": "#main/reads"}, {"id": "#main/each/cut", "source": "#main/cut"}], "out": ["#main/each/out", "#main/each/n"]},
       {"id": "#main/sum", "run": "#sum.cwl", "in": [{"id": "#main/sum/ns", "source": "#main/each/n"}], "out": ["#main/sum/total"]}
     ]},
    {"class": "Workflow", "id": "#inner",
     "requirements": [{"class": "StepInputExpressionRequirement"}, {"class": "InlineJavascriptRequirement"}],
     "inputs": [{"id": "#inner/read", "type": "File"}, {"id": "#inner/cut", "type": "float"}],
     "outputs": [{"id": "#inner/out", "type": "File", "outputSource": "#inner/name/out"}, {"id": "#inner/n", "type": "int", "outputSource": "#inner/name/n"}],
     "steps": [
       {"id": "#inner/name", "run": "#tool.cwl", "in": [{"id": "#inner/name/f", "source": "#inner/read"}, {"id": "#inner/name/label", "source": "#inner/read", "valueFrom": "$(self.nameroot + '-' + inputs.cut)"}, {"id": "#inner/name/cut", "source": "#inner/cut"}], "out": ["#inner/name/out", "#inner/name/n"]}
     ]},
    {"class": "CommandLineTool", "id": "#tool.cwl",
     "requirements": [{"class": "InlineJavascriptRequirement"}],
     "baseCommand": ["sh", "-c", "echo \"$1\"; wc -l < \"$2\" | tr -d ' ' > n", "sh"],
     "inputs": [{"id": "#tool.cwl/label", "type": "string", "inputBinding": {"position": 1}}, {"id": "#tool.cwl/f", "type": "File", "inputBinding": {"position": 2}}, {"id": "#tool.cwl/cut", "type": "float"}],
     "stdout": "$(inputs.f.nameroot).label",
     "outputs": [{"id": "#tool.cwl/out", "type": "stdout"}, {"id": "#tool.cwl/n", "type": "int", "outputBinding": {"glob": "n", "loadContents": true, "outputEval": "$(parseInt(self[0].contents) * 2)"}}]},
    {"class": "ExpressionTool", "id": "#sum.cwl", "requirements": [{"class": "InlineJavascriptRequirement"}],
     "inputs": [{"id": "#sum.cwl/ns", "type": {"type": "array", "items": "int"}}],
     "outputs": [{"id": "#sum.cwl/total", "type": "int"}],
     "expression": "${ var t = 0; for (var i = 0; i < inputs.ns.length; i++) { t += inputs.ns[i]; } return {total: t}; }"}
  ]
}
