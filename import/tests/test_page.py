"""docs/use/coming-from-cwltool.md: its documents are those of examples/, and its commands print what it shows."""

import os
import re
import shutil
import subprocess
import sys
import unittest
from typing import Dict, List, Tuple

from .helping import HERE, TOP, InFolder, program

from deparohi_import import node

EXAMPLES = os.path.join(HERE, "examples")
# Calls a command, keeps what it prints, its errors last, and passes its status on to the next one.
CALL = """(exit $status)
%s > ../said 2> ../errors
status=$?
cat ../said ../errors >> ../all
echo "== done" >> ../all
"""


def blocks(kind: str) -> List[str]:
    with open(os.path.join(TOP, "docs", "use", "coming-from-cwltool.md"), encoding="utf-8") as it:
        return re.findall(rf"(?ms)^```{kind}\n(.*?)^```$", it.read())


def calls() -> List[Tuple[str, str]]:
    """Returns the commands of the page, each with what it prints."""
    text = "".join(it for it in blocks("console") if "count.yml" not in it or node.is_there())
    return [(command, said) for command, said in re.findall(r"(?m)^\$ (.*)\n((?:(?!\$ ).*\n)*)", text)]


class Page(InFolder):
    def test_its_documents_are_the_examples(self) -> None:
        kept = []
        for name in os.listdir(EXAMPLES):
            if name.endswith((".cwl", ".yml")):
                with open(os.path.join(EXAMPLES, name), encoding="utf-8") as it:
                    kept.append(it.read())
        self.assertGreaterEqual(len(blocks("yaml")), 7)
        for it in blocks("yaml"):
            self.assertTrue(it in kept, f"no file of examples/ is:\n{it}")

    def programs(self) -> str:
        """Makes a folder with the programs that the page calls."""
        folder = os.path.join(self.path, "bin")
        os.mkdir(folder)
        os.symlink(sys.executable, os.path.join(folder, "python3"))
        os.symlink(os.path.join(HERE, "cwl-runner"), os.path.join(folder, "cwl-runner"))
        os.symlink(os.path.join(HERE, "deparohi-import"), os.path.join(folder, "deparohi-import"))
        os.symlink(os.path.realpath(program()), os.path.join(folder, "deparohi"))
        return folder

    @unittest.skipUnless(program(), "no program deparohi")
    def test_its_commands_print_what_it_shows(self) -> None:
        here = shutil.copytree(EXAMPLES, os.path.join(self.path, "you"))
        room: Dict[str, str] = {"PATH": f"{self.programs()}:{os.environ['PATH']}", "TMPDIR": self.path, "LC_ALL": "C"}
        script = "status=0\n" + "".join(CALL % command for command, _ in calls())
        ended = subprocess.run(["bash", "-c", script], cwd=here, env=room, stdin=subprocess.DEVNULL, stderr=subprocess.PIPE, universal_newlines=True)
        self.assertEqual("", ended.stderr)
        with open(os.path.join(self.path, "all"), encoding="utf-8") as it:
            said = it.read().replace(here, "/home/you").split("== done\n")
        self.assertGreaterEqual(len(calls()), 15)
        for (command, wanted), given in zip(calls(), said):
            with self.subTest(command):
                self.assertEqual(wanted, given)


if __name__ == "__main__":
    unittest.main()
