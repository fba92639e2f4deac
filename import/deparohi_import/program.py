"""The words of `deparohi-import`, and how it ends."""

import os
import sys
from types import SimpleNamespace
from typing import Any, List, Optional, Tuple

from . import runner, yaml_library
from .choices import ENGINES, Choices
from .fault import ImportFault
from .findings import LEFT, WRONG, Findings
from .folder import INPUTS, Folder
from .importing import Import
from .pattern import Pattern
from .requirements import FORCED
from .versions import UnknownVersion
from .visible import visible

UNSUPPORTED, FAILED, USAGE = 33, 1, 3
# The options, as the command `deparohi` passes them on.
VALUED = ("--container", "--cores", "--ram", "--environment")
FLAGS = ("--allow-outside", "--leave-javascript", *FORCED.values())
# Refusals of documents that are wrong by the standard, as cwl-runner takes them, and not only of what this runner leaves out.
WRONG_DOCUMENT = Pattern(r"refused: (C1|C4|C8|K\d)\b")


def simple_words(arguments: List[str]) -> Optional[SimpleNamespace]:
    """Returns what words without a value ask for, as the command gives them, or None where argparse has to look at them."""
    made = SimpleNamespace(output=None, quiet=False, container=None, cores=None, ram=None, environment=[], allow_outside=False, leave_javascript=False, forced=[])
    options, files, rest = {it: name for name, it in FORCED.items()}, [], iter(arguments)
    for word in rest:
        if word == "--":
            files += list(rest)
        elif word == "-o":
            made.output = next(rest, None)
        elif word in ("--quiet", "--allow-outside", "--leave-javascript"):
            setattr(made, word[2:].replace("-", "_"), True)
        elif word in options:
            made.forced.append(options[word])
        elif word.startswith("-"):
            return None
        else:
            files.append(word)
    made.file, made.inputs = (*files, None, None)[:2]
    return made if made.output and 1 <= len(files) <= 2 else None


def words_of(arguments: List[str]) -> Any:
    found = simple_words(arguments)
    if found:
        return found
    import argparse

    parser = argparse.ArgumentParser(
        prog="deparohi-import",
        description="Makes of a CWL document, in YAML or JSON and of v1.0 to v1.2, the JSON that `deparohi run` takes. Prints the paths of the document "
        "and of the input object that it wrote. The report, report.txt, says what was rewritten, and what is left that the runner refuses.",
        epilog="Status: 0 where the runner should take the document, 33 where something is left that it refuses, 1 where a file is wrong, 3 for other words.",
    )
    parser.add_argument("file", metavar="FILE[#ID]", help="the document, and of a packed one which process (main, where none is named)")
    parser.add_argument("inputs", metavar="INPUTS", nargs="?", help="the input object, in YAML or JSON")
    parser.add_argument("-o", "--output", metavar="FOLDER", required=True, help="the folder to write, which is made where it is absent")
    parser.add_argument("--quiet", action="store_true", help="print no findings on standard error; they are in the report")
    parser.add_argument("--container", choices=ENGINES, help="run tools that ask for a container in one, by this engine")
    parser.add_argument("--cores", type=int, metavar="N", help="how many processors a tool may use, within what it asks for")
    parser.add_argument("--ram", type=int, metavar="MB", help="how many megabytes of memory a tool may use, within what it asks for")
    parser.add_argument("--environment", action="append", default=[], metavar="NAME", help="put this variable, with its value here, into the document; it counts like an input")
    parser.add_argument("--allow-outside", action="store_true", help="let $import and $include read files outside of the document's folder")
    parser.add_argument("--leave-javascript", action="store_true", help="leave JavaScript also where node, which can evaluate it, is in PATH")
    for name, option in FORCED.items():
        parser.add_argument(option, dest="forced", action="append_const", const=name, default=[], help=f"take {name} for a hint, which the runner ignores")
    refuse = parser.error
    parser.error = lambda text: refuse(visible(text))  # type: ignore
    return parser.parse_args(arguments)


def choices_of(words: Any) -> Choices:
    variables = tuple((name, os.environ[name].replace("\\", "\\\\").replace("$(", "\\$(").replace("${", "\\${")) for name in words.environment if name in os.environ)
    return Choices(words.container, words.cores, words.ram, variables, not words.leave_javascript, words.allow_outside)


def main(arguments: List[str]) -> int:
    status, written = made_of(arguments)
    for it in written:
        print(for_stdout(it))
    return status or asked(*written)


def made_of(arguments: List[str], mode: int = 0o777) -> Tuple[int, List[str]]:
    """Imports, and returns the status, and the paths of what was written. A folder that is made has this mode, as far as the user gives rights."""
    # A name of a file need not be UTF-8.
    sys.stdout.reconfigure(errors="surrogateescape")  # type: ignore
    try:
        words = words_of(arguments)
    except SystemExit as ended:
        # Help ends well, and leaves nothing to do.
        return USAGE if ended.code else 0, []
    if not yaml_library.NAME:
        print("deparohi-import: no YAML library: install python3-ruamel.yaml or python3-yaml", file=sys.stderr)
        return USAGE, []
    try:
        return imported(words, mode)
    except UnknownVersion as fault:
        say(f"left: {fault}")
        return UNSUPPORTED, []
    except ImportFault as fault:
        say(f"wrong: {fault}")
    except RecursionError:
        say(f"wrong: {words.file}: processes or types nest too deep")
    except MemoryError:
        say(f"wrong: {words.file}: there is not enough memory to read it")
    return FAILED, []


def say(text: str) -> None:
    print(visible(text), file=sys.stderr)


def for_stdout(text: str) -> str:
    """Returns a line for standard output: as it is, or as a terminal shows it."""
    return visible(text) if sys.stdout.isatty() else text


def imported(words: Any, mode: int) -> Tuple[int, List[str]]:
    folder = Folder(words.output, mode)
    one = Import(folder, set(words.forced), choices_of(words))
    name = one.document(words.file)
    if words.inputs is not None:
        one.inputs(words.inputs)
    folder.write(report_of(one.findings, words.file))
    written = [os.path.join(folder.path, name)]
    if words.inputs is not None:
        written.append(os.path.join(folder.path, INPUTS))
    if not words.quiet:
        for it in one.findings.all:
            if it.kind in (LEFT, WRONG):
                print(it.text(), file=sys.stderr)
    return one.findings.status(), written


def asked(document: str = "", inputs: Optional[str] = None) -> int:
    """Asks `deparohi run --validate` where it is there, and returns how that ended."""
    deparohi = runner.program()
    if not document or deparohi is None or not runner.validates(deparohi):
        return 0
    said = runner.verdict(deparohi, document, inputs)
    if not said.accepted:
        print(f"deparohi run --validate: {said.words}", file=sys.stderr)
    if said.accepted:
        return 0
    return FAILED if WRONG_DOCUMENT.match(said.words) else UNSUPPORTED


def report_of(findings: Findings, file: str) -> str:
    """Returns the report: what is left and wrong first, then what was rewritten and what is ignored."""
    lines = [f"{visible(file)}: {'this runner should take it' if not findings.status() else 'this runner refuses it'}"]
    for kind in ("wrong", "left", "rewritten", "ignored"):
        lines += [it.text() for it in findings.of(kind)]
    return "\n".join(lines) + "\n"
