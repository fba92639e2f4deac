"""Measures the command `deparohi` beside the program and python3, as bench/front/run.sh says.

usage: front.py INSTALLED ROUNDS
"""

import json
import os
import resource
import statistics
import subprocess
import sys
import tempfile

MOST_JSON, MOST_YAML = 1.5, 4.0
TOOL = {"cwlVersion": "v1.2", "class": "CommandLineTool", "baseCommand": "true", "inputs": {"word": {"type": "string", "inputBinding": {}}}, "outputs": []}
YAML = "cwlVersion: v1.2\nclass: CommandLineTool\nbaseCommand: 'true'\ninputs:\n  word:\n    type: string\n    inputBinding: {}\noutputs: []\n"


def put(path, text):
    with open(path, "w", encoding="utf-8") as it:
        it.write(text)


def took(words, room):
    """Returns the milliseconds of processors that a command takes, with what it starts."""
    begun = spent()
    subprocess.run(words, cwd=room, stdin=subprocess.DEVNULL, stdout=subprocess.DEVNULL, stderr=subprocess.PIPE, check=True)
    return (spent() - begun) * 1000


def spent():
    used = resource.getrusage(resource.RUSAGE_CHILDREN)
    return used.ru_utime + used.ru_stime


def main(installed, rounds):
    program, front, importer = (f"{installed}/{it}" for it in ("libexec/deparohi/deparohi-proved", "bin/deparohi", "bin/deparohi-import"))
    with tempfile.TemporaryDirectory() as room:
        put(f"{room}/tool.json", json.dumps(TOOL))
        put(f"{room}/tool.cwl", YAML)
        put(f"{room}/inputs.json", '{"word": "x"}')
        put(f"{room}/inputs.yml", "word: x\n")
        imported = ["python3", "-B", importer, "--quiet", "-o", "in", "tool.cwl", "inputs.yml"]
        run = ["run", "--quiet", "--outdir", "out", "--work", "work"]
        commands = {
            "python3 -c pass": ["python3", "-c", "pass"],
            "the program, JSON": [program, *run, "tool.json", "inputs.json"],
            "deparohi, JSON": [front, *run, "tool.json", "inputs.json"],
            "deparohi, YAML": [front, *run, "tool.cwl", "inputs.yml"],
            "deparohi-import": imported,
        }
        os.environ["DEPAROHI"] = "/bin/true"
        times = {name: [] for name in commands}
        for _ in range(rounds):
            for name, words in commands.items():
                subprocess.run(["rm", "-rf", f"{room}/work"], check=True)
                times[name].append(took(words, room))
    found = {name: statistics.median(it) for name, it in times.items()}
    for name, it in found.items():
        print(f"{name}\t{it:.1f} ms")
    more = statistics.median(b - a for a, b in zip(times["the program, JSON"], times["deparohi, JSON"]))
    ratio = statistics.median(b / a for a, b in zip(times["python3 -c pass"], times["deparohi, YAML"]))
    less = statistics.median((b - c) / a for a, b, c in zip(times["python3 -c pass"], times["deparohi, YAML"], times["the program, JSON"]))
    print(f"figure\tof a JSON tool the command takes more than the program\t{more:.2f} ms")
    print(f"figure\tof a YAML tool the command takes as long as python3's start\t{ratio:.2f} times; less the program itself {less:.2f}")
    return 1 if more > MOST_JSON or ratio > MOST_YAML else 0


if __name__ == "__main__":
    sys.exit(main(sys.argv[1], int(sys.argv[2])))
