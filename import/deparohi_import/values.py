"""Rewrites values: locations become URLs, literals become files, and what the runner has no values of is found."""

import os
from typing import Any

from .findings import LEFT, REWRITTEN, WRONG, Findings
from .folder import Folder
from .marked import Fields, Items
from .names import class_name
from .places import NotAFile, is_name, path_of, url_of

GREATEST = 2**63


class Values:
    """The values of one import. Its folder takes what has no place of its own."""

    def __init__(self, findings: Findings, folder: Folder) -> None:
        self.findings, self.make_file, self.make_folder, self.folder = findings, folder.file, folder.folder, folder

    def rewritten(self, node: Any, key: Any, value: Any, kind: Any = None) -> Any:
        """Returns a value in the forms of the runner. Numbers with a fraction stay where its type, expanded, is known."""
        if isinstance(value, float):
            if kind is None:
                self.findings.add(LEFT, node, key, "float", f"this runner has no numbers with a fraction or an exponent: {value}")
        elif isinstance(value, int) and not isinstance(value, bool) and not -GREATEST <= value < GREATEST:
            self.findings.add(LEFT, node, key, "large number", "a number is not of 64 bits")
        elif isinstance(value, Items):
            items = value.like()
            for at, it in enumerate(value):
                items.add(self.rewritten(value, at, it, kind), value.line_at(at))
            return items
        elif isinstance(value, Fields):
            name = class_name(value["class"]) if isinstance(value.get("class"), str) else None
            return self.file(value, name) if name in ("File", "Directory") else self.fields(value, kind)
        return value

    def fields(self, value: Fields, kind: Any) -> Fields:
        fields = value.like()
        for key, it in value.items():
            fields.put(key, self.rewritten(value, key, it, kind), value.line_of(key))
        return fields

    def file(self, value: Fields, kind: str) -> Fields:
        file = value.like()
        for key, it in value.items():
            if it is None or key in ("location", "path", "contents"):
                continue
            if key in ("secondaryFiles", "listing"):
                it = self.rewritten(value, key, it)
            file.put(key, kind if key == "class" else it, value.line_of(key))
        where = self.place(value, kind, file)
        if where is not None:
            file.put("location", where)
        return file

    def place(self, value: Fields, kind: str, file: Fields) -> Any:
        """Returns the location of a File or Directory, which a literal is given here."""
        location, path = value.get("location"), value.get("path")
        if isinstance(path, str) and not isinstance(location, str):
            if "\0" in path:
                self.findings.add(WRONG, value, "path", "location", "a path has a zero character")
            return url_of(os.path.normpath(os.path.join(os.path.dirname(value.file), path)))
        if isinstance(location, str) and not location.startswith("_:"):
            try:
                return url_of(path_of(location, value.file))
            except NotAFile as error:
                self.findings.add(LEFT, value, "location", "remote file", str(error))
                return location
        if kind == "File" and isinstance(value.get("contents"), str):
            return self.literal(value, file)
        if kind == "Directory" and isinstance(value.get("listing"), Items):
            return self.literal_folder(value, file)
        self.findings.add(WRONG, value, None, "location", f"a {kind} has neither a location nor a path, and is no literal")
        return None

    def literal(self, value: Fields, file: Fields) -> str:
        name = self.name_of(value, "literal")
        if "basename" not in file:
            file.put("basename", name)
        self.findings.add(REWRITTEN, value, None, "File literal", f"its contents are written to the file {name}")
        return url_of(self.make_file(name, value["contents"]))

    def literal_folder(self, value: Fields, file: Fields) -> Any:
        name, entries = self.name_of(value, "folder"), {}
        for it in file.pop("listing"):
            path = self.path_below(it, value.file)
            if path is None:
                self.findings.add(LEFT, value, "listing", "Directory literal", "an entry of a literal folder is no file on this machine")
                return None
            entry = it.get("basename") or os.path.basename(path)
            if not is_name(entry):
                self.findings.add(WRONG, it, "basename", "basename", f"{entry} is no name of a file in a folder")
            elif entries.setdefault(entry, path) != path:
                self.findings.add(WRONG, it, None, "repeated name", f"two files of the folder {name} have the name {entry}")
        if "basename" not in file:
            file.put("basename", name)
        self.findings.add(REWRITTEN, value, None, "Directory literal", f"its listing is written to the folder {name}, as links to its files")
        return url_of(self.make_folder(name, list(entries.items())))

    def path_below(self, entry: Any, file: str) -> Any:
        """Returns the path of an entry of a listing, or None where it has none on this machine."""
        location = entry.get("location") if isinstance(entry, Fields) else None
        try:
            return path_of(location, file) if isinstance(location, str) else None
        except NotAFile:
            return None

    def name_of(self, value: Fields, other: str) -> str:
        name = value.get("basename")
        return str(name) if is_name(name) else other
