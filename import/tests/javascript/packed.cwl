{"cwlVersion": "v1.2", "$graph": [
 {"class": "Workflow", "id": "#main", "requirements": [{"class": "InlineJavascriptRequirement"}, {"class": "StepInputExpressionRequirement"}],
  "inputs": [{"id": "#main/a", "type": "int"}, {"id": "#main/f", "type": "File"}],
  "outputs": [{"id": "#main/o", "type": "int", "outputSource": "#main/parse/number"}, {"id": "#main/w", "type": "string", "outputSource": "#main/word/word"}],
  "steps": [
   {"id": "#main/parse", "run": "#parse", "in": [{"id": "#main/parse/file", "source": "#main/f"}, {"id": "#main/parse/add", "source": "#main/a", "valueFrom": "$(self * 10)"}], "out": ["#main/parse/number"]},
   {"id": "#main/word", "run": "#word", "in": [{"id": "#main/word/number", "source": "#main/parse/number"}], "out": ["#main/word/word"]}]},
 {"class": "ExpressionTool", "id": "#parse", "requirements": [{"class": "InlineJavascriptRequirement", "expressionLib": ["function number(text) { return parseInt(text); }"]}],
  "inputs": [{"id": "#parse/file", "type": "File", "inputBinding": {"loadContents": true}}, {"id": "#parse/add", "type": "int"}],
  "outputs": [{"id": "#parse/number", "type": "int"}], "expression": "$({number: number(inputs.file.contents) + inputs.add})"},
 {"class": "CommandLineTool", "id": "#word", "inputs": [{"id": "#word/number", "type": "int"}], "outputs": [{"id": "#word/word", "type": "string", "outputBinding": {"outputEval": "$('n' + inputs.number)"}}], "baseCommand": "true"}
]}
