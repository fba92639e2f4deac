"""The folder that an import writes: documents, an input object, the files of literals and a report."""

import json
import os
from typing import Any, Callable, Dict, List, Set

try:
    # It takes a tenth of the time to load that hashlib takes.
    from _sha1 import sha1  # type: ignore
except ImportError:
    from hashlib import sha1

from .fault import ImportFault
from .places import is_name, quoted

REPORT, INPUTS, LITERALS, MADE_BY = "report.txt", "inputs.json", "literals", "made-by"
LONG = 200_000
MOST_CHARACTERS = 16 << 20


class Folder:
    """A folder with names that are given once each. Nothing is written before the import is whole."""

    def __init__(self, path: str, mode: int = 0o777) -> None:
        self.path, self.mode = os.path.abspath(path), mode
        self.names: Set[str] = {REPORT, INPUTS, LITERALS}
        self.documents: List[tuple] = []
        self.literals: List[tuple] = []
        self.extras: Dict[str, str] = {}

    def name(self, wanted: str) -> str:
        """Returns a name for a document that none has yet."""
        stem = wanted if is_name(wanted) else "document"
        name, count = f"{stem}.json", 1
        while name in self.names:
            count += 1
            name = f"{stem}-{count}.json"
        self.names.add(name)
        return name

    def document(self, name: str, value: Any) -> None:
        self.documents.append((name, value))

    def extra(self, name: str, text: Callable[[], str]) -> str:
        """Adds a file of this name, which is asked for its text once. Returns the name."""
        if name not in self.extras:
            self.extras[name] = text()
            if sum(map(len, self.extras.values())) > MOST_CHARACTERS:
                raise ImportFault(f"with their expressionLib the plans of jobs have more than {MOST_CHARACTERS} characters", self.path)
        return name

    def file(self, name: str, contents: str) -> str:
        path = os.path.join(self.path, LITERALS, str(len(self.literals)), name)
        self.literals.append((path, contents))
        return path

    def folder(self, name: str, entries: list) -> str:
        path = os.path.join(self.path, LITERALS, str(len(self.literals)), name)
        self.literals.append((path, entries))
        return path

    def write(self, report: str) -> None:
        """Writes all of it."""
        try:
            os.makedirs(self.path, self.mode, exist_ok=True)
            for path, contents in self.literals:
                self.write_literal(path, contents)
            for name, text in self.extras.items():
                self.make(os.path.dirname(name))
                self.put(os.path.join(self.path, name), text)
            for name, value in self.documents:
                self.put(os.path.join(self.path, name), json_text(value))
            self.put(os.path.join(self.path, REPORT), report)
            self.put(os.path.join(self.path, MADE_BY), f"{sum_of(''.join(text for name, text in self.extras.items() if name.endswith('.js')))}\n")
        except OSError as error:
            raise ImportFault(f"the folder can't be written: {error.strerror}", error.filename or self.path) from None
        except UnicodeEncodeError:
            raise ImportFault("the folder can't be written: a name has characters that names of files can't have here", self.path) from None

    def make(self, name: str) -> None:
        """Makes the folders that a name in this folder leads through. None may be a link: it could lead to another's files."""
        at = self.path
        for part in filter(None, name.split("/")):
            at = os.path.join(at, part)
            try:
                os.mkdir(at)
            except FileExistsError:
                if os.path.islink(at) or not os.path.isdir(at):
                    raise ImportFault("this is no folder, and what is imported needs one here", at) from None

    def write_literal(self, path: str, contents: Any) -> None:
        if isinstance(contents, str):
            self.make(os.path.relpath(os.path.dirname(path), self.path))
            self.put(path, contents)
            return
        self.make(os.path.relpath(path, self.path))
        wanted = dict(contents)
        for name in os.listdir(path):
            # An earlier import may have put others there.
            link = os.path.join(path, name)
            if not os.path.islink(link):
                raise ImportFault("no import has put this here", link)
            if wanted.get(name) == os.readlink(link):
                del wanted[name]
            else:
                os.remove(link)
        for name, source in wanted.items():
            os.symlink(source, os.path.join(path, name))

    def put(self, path: str, text: str) -> None:
        """Puts a file in place of an earlier one, whole or not at all. A link at either name is replaced, and not followed."""
        new = f"{path}.new"
        if os.path.lexists(new):
            os.remove(new)
        with open(new, "x", encoding="utf-8", errors="surrogatepass", newline="") as it:
            it.write(text)
        os.replace(new, path)


def sum_of(text: str) -> str:
    return sha1(text.encode("utf-8", "surrogatepass")).hexdigest()


def reference_to(name: str) -> str:
    """Returns the name of a document as the `run` of a step names it."""
    return quoted(name)


def json_text(value: Any) -> str:
    """Returns the JSON of a value, with a line for each entry, or in one line where that would be long."""
    text = json.dumps(value, ensure_ascii=False)
    return (text if len(text) > LONG else json.dumps(value, indent=1, ensure_ascii=False)) + "\n"
