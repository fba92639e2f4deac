"""Ends a run by a signal while commands of it sleep, and asks what is left, and whether the words on it lead to a run that ends well.

usage: signals.py PROGRAM

For each of SIGINT, SIGTERM, SIGHUP and SIGKILL a run of two jobs, whose first one has ended, is sent the signal while the second one sleeps. Then
- the run has ended by that signal, which a shell shows as 128 and its number, and has printed nothing;
- its work folder is there, with what the first job gave;
- the same run is refused as `fault: work`, with a word that the folder was left by a run that was interrupted, and the command that removes it;
- that command removes it, once what slept has ended, and the same run then ends with the right output.
It also says how many of the two processes that sleep outlived the run, one of which the command leaves behind it: no call of the toolchain's library asks the
system to end them (docs/DECISIONS.md), and a launcher does. With `setpriv` and `unshare` (util-linux) none is left, or that is WRONG. The status is 1 where
something is not so. Needs Linux and Python 3.8 or later.
"""

import glob
import hashlib
import itertools
import json
import os
import shlex
import shutil
import signal
import subprocess
import sys
import tempfile
import time

SECONDS, SLEEP = 120, 5
SIGNALS = (signal.SIGINT, signal.SIGTERM, signal.SIGHUP, signal.SIGKILL)
FIRST = {"class": "CommandLineTool", "baseCommand": ["printf", "abc"], "stdout": "a.txt", "inputs": {}, "outputs": {"o": "stdout"}}
# It leaves a process behind that sleeps, and sleeps itself.
SECOND = {
    "class": "CommandLineTool",
    "baseCommand": ["sh", "-c", 'sleep "$0" & sleep "$0"; cat "$1"'],
    "arguments": [],
    "stdout": "c.txt",
    "inputs": {"f": {"type": "File", "inputBinding": {"position": 1}}},
    "outputs": {"o": "stdout"},
}
# The system ends the command with the run by the first, and by the second also what the command has started.
ENDED_WITH = "setpriv --pdeathsig KILL"
ALL_ENDED = f"{ENDED_WITH} unshare --user --map-current-user --fork --pid --kill-child"
DOCUMENT = {
    "cwlVersion": "v1.2",
    "class": "Workflow",
    "inputs": {},
    "outputs": {"o": {"type": "File", "outputSource": "c/o"}},
    "steps": {"a": {"run": FIRST, "in": {}, "out": ["o"]}, "c": {"run": SECOND, "in": {"f": "a/o"}, "out": ["o"]}},
}


def waited_for(is_so, seconds=SECONDS):
    for _ in range(seconds * 100):
        if is_so():
            return True
        time.sleep(0.01)
    return False


def content_of(path):
    with open(path) as it:
        return it.read()


def sleeping(seconds):
    """Returns how many processes sleep so many seconds."""
    count = 0
    for path in glob.glob("/proc/[0-9]*/cmdline"):
        try:
            count += content_of(path) == f"sleep\0{seconds}\0"
        except OSError:
            continue
    return count


def tried(folder, program, number, launcher, seconds):
    """Sends a signal to a run in a folder. Returns what is not as it has to be, and how many of the two that sleep outlived the run."""
    os.makedirs(folder)
    DOCUMENT["steps"]["c"]["run"] = {**SECOND, "arguments": [seconds]}
    with open(f"{folder}/document", "w") as it:
        json.dump(DOCUMENT, it)
    words, wrong = [program, "run", "--explain", "--work", "work", "--outdir", "out", *(["--launcher", launcher] if launcher else []), "document"], []
    how = {"cwd": folder, "stdin": subprocess.DEVNULL, "stdout": subprocess.PIPE, "stderr": subprocess.PIPE, "text": True}
    run = subprocess.Popen(words, **how)
    if not waited_for(lambda: sleeping(seconds) == 2):
        run.kill()
        return ["the second job did not start"], 0
    run.send_signal(number)
    said, told = run.communicate(timeout=SECONDS)
    if launcher == ALL_ENDED:
        waited_for(lambda: not sleeping(seconds), 1)
    left = sleeping(seconds)
    if launcher == ALL_ENDED and left:
        wrong.append(f"{left} processes outlive the run")
    if (run.returncode, said) != (-number, ""):
        wrong.append(f"the run ended with {run.returncode}: {said!r} {told!r}")
    found = f"{folder}/work/j1/out/a.txt"
    if not os.path.exists(found) or content_of(found) != "abc":
        wrong.append("what the first job gave is not left")
    again = subprocess.run(words, timeout=SECONDS, check=False, **how)
    remover = f"rm -r {shlex.quote(os.path.realpath(folder))}/work"
    expected = f"fault: work\nthe work folder {os.path.realpath(folder)}/work was left by a run that was interrupted: `{remover}` removes it\n"
    if (again.returncode, again.stdout, again.stderr) != (3, "", expected):
        wrong.append(f"the run after it ends with {again.returncode}: {again.stderr!r}")
    waited_for(lambda: not sleeping(seconds), 2 * SLEEP)
    if subprocess.run(["sh", "-c", remover], check=False).returncode:
        wrong.append("the command that is told does not remove the folder")
    last = subprocess.run(words, timeout=SECONDS, check=False, **how)
    file = json.loads(last.stdout or "{}").get("o", {})
    if last.returncode or file.get("checksum") != f"sha1${hashlib.sha1(b'abc').hexdigest()}":
        wrong.append(f"then it ends with {last.returncode}: {last.stdout!r} {last.stderr!r}")
    return wrong, left


def launchers():
    """Returns those that this computer has, and none."""
    fits = [it for it in (ENDED_WITH, ALL_ENDED) if subprocess.run([*it.split(), "true"], stderr=subprocess.DEVNULL, check=False).returncode == 0]
    return ["", *fits]


def main(program):
    folder, failed = tempfile.mkdtemp(), 0
    try:
        for count, (launcher, number) in enumerate(itertools.product(launchers(), SIGNALS)):
            seconds = f"{SLEEP}.{os.getpid()}{count:02}"
            wrong, left = tried(f"{folder}/{count}", os.path.abspath(program), number, launcher, seconds)
            failed += bool(wrong)
            by = f" by {launcher}" if launcher else ""
            print(f"{'WRONG' if wrong else 'right'}  a run is sent {number.name} while a command{by} and one behind it sleep ({left} of 2 outlive it){': ' if wrong else ''}{'; '.join(wrong)}", flush=True)
        print(f"not as it has to be: {failed}")
        return 1 if failed else 0
    finally:
        shutil.rmtree(folder, ignore_errors=True)


if __name__ == "__main__":
    sys.exit(main(sys.argv[1]) if len(sys.argv) == 2 else print(__doc__) or 2)
