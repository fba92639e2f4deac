{
    "cwlVersion": "v1.0",
    "$graph": [
        {
            "class": "CommandLineTool", "id": "#count.cwl", "baseCommand": ["wc", "-l"],
            "inputs": [{"id": "#count.cwl/text", "type": "stdin"}],
            "outputs": [{"id": "#count.cwl/lines", "type": "File", "outputBinding": {"glob": "lines.txt"}}],
            "stdout": "lines.txt"
        },
        {
            "class": "Workflow", "id": "#main",
            "inputs": [{"id": "#main/text", "type": "File"}],
            "outputs": [{"id": "#main/lines", "type": "File", "outputSource": "#main/count/lines"}],
            "steps": [
                {
                    "id": "#main/count", "run": "#count.cwl",
                    "in": [{"id": "#main/count/text", "source": "#main/text"}], "out": ["#main/count/lines"]
                }
            ]
        }
    ]
}
