"""Loads files with what they import: `$import`, `$include` and `$mixin`, which the importer puts in their place."""

import os
from typing import Any, Dict, Tuple

from .fault import ImportFault
from .findings import place_of
from .marked import Fields, Items
from .places import NotAFile, path_of, split_fragment
from .reading import read_file, read_text

MOST_FILES = 1_000
MOST_VALUES = 300_000
MOST_CHARACTERS = 16 << 20


class Library:
    """The files of one import, each read once, with what they import put in place."""

    def __init__(self, outside: bool = True) -> None:
        # The folder of the document that was asked for first: what is imported lies below it, or below the folder of the file that imports.
        self.outside, self.top = outside, ""
        self.files: Dict[str, Any] = {}
        self.texts: Dict[str, str] = {}
        self.reading: Dict[str, None] = {}
        # How many values and characters are in a file with all that it imports, and how many were put in place so far.
        self.sizes: Dict[str, Tuple[int, int]] = {}
        self.values = self.characters = 0

    def load(self, path: str, node: Any = None, key: Any = None) -> Any:
        """Returns the data of a file. A fault that is due to the file's name stands where the name is written."""
        path = os.path.abspath(path)
        if path in self.reading:
            raise fault_at(f"{path} imports itself", node, key)
        if not self.top:
            self.top = os.path.realpath(os.path.dirname(path))
        if path not in self.files:
            self.room(len(self.files) + len(self.texts), node, key)
            if node is not None:
                check_file(path, node, key)
            self.reading[path] = None
            values, characters = self.values, self.characters
            self.files[path] = self.placed(read_file(path))
            self.sizes[path] = (self.values - values, self.characters - characters)
            del self.reading[path]
        return self.files[path]

    def text(self, path: str, node: Any, key: Any) -> str:
        if path not in self.texts:
            self.room(len(self.files) + len(self.texts), node, key)
            check_file(path, node, key)
            self.texts[path] = read_text(path)
        return self.texts[path]

    def room(self, count: int, node: Any, key: Any) -> None:
        if count >= MOST_FILES:
            raise fault_at(f"more than {MOST_FILES} files come together", node, key)

    def named(self, node: Fields, key: str) -> str:
        """Returns the path that an entry names, without its fragment."""
        name = node[key]
        if not isinstance(name, str):
            raise fault_at(f"{key} names no file", node, key)
        before = split_fragment(name)[0]
        if not before:
            raise fault_at(f"{key} names {name or 'nothing'}, a part of its own file, and takes another file", node, key)
        try:
            path = path_of(before, node.file)
        except NotAFile as error:
            raise fault_at(str(error), node, key) from None
        folders = [self.top, os.path.realpath(os.path.dirname(node.file))]
        if not self.outside and not any(os.path.realpath(path).startswith(it.rstrip("/") + "/") for it in folders):
            raise fault_at(f"{key} names {name}, outside of the document's folder; --allow-outside takes it", node, key)
        return path

    def placed(self, value: Any) -> Any:
        """Returns the value with what it imports in its place."""
        if isinstance(value, Fields):
            self.spent(value, 1 + len(value), sum(map(length, value.values())))
            if "$import" in value:
                return self.imported(value)
            if "$include" in value:
                text = self.text(self.named(value, "$include"), value, "$include")
                self.spent(value, 0, len(text))
                return text
            return self.mixed(value) if "$mixin" in value else self.placed_fields(value)
        if isinstance(value, Items):
            self.spent(value, 1 + len(value), sum(map(length, value)))
            return self.placed_items(value)
        return value

    def spent(self, value: Any, values: int, characters: int) -> None:
        self.values += values
        self.characters += characters
        if self.values > MOST_VALUES or self.characters > MOST_CHARACTERS:
            words = f"with what it imports the document has more than {MOST_VALUES} values or {MOST_CHARACTERS} characters"
            raise ImportFault(words, value.file, value.line)

    def loaded(self, value: Fields, key: str) -> Any:
        """Returns what an entry imports, which counts again where it was imported before."""
        path = self.named(value, key)
        if path in self.sizes:
            self.spent(value, *self.sizes[path])
        return self.load(path, value, key)

    def imported(self, value: Fields) -> Any:
        if len(value) > 1:
            raise fault_at("an object with $import has no other fields", value, "$import")
        whole = self.loaded(value, "$import")
        fragment = split_fragment(value["$import"])[1]
        return member(whole, fragment, value) if fragment else whole

    def mixed(self, value: Fields) -> Fields:
        base = self.loaded(value, "$mixin")
        if not isinstance(base, Fields):
            raise fault_at("what $mixin names is no object", value, "$mixin")
        mixed = base.like()
        for key, it in base.items():
            mixed.put(key, it, base.line_of(key))
        for key, it in value.items():
            if key != "$mixin":
                mixed.put(key, self.placed(it), value.line_of(key))
        return mixed

    def placed_fields(self, value: Fields) -> Fields:
        placed = value.like()
        for key, it in value.items():
            placed.put(key, self.placed(it), value.line_of(key))
        return placed

    def placed_items(self, value: Items) -> Items:
        placed = value.like()
        for at, it in enumerate(value):
            line, new = value.line_at(at), self.placed(it)
            # A list that is imported into a list comes in place of its import.
            if isinstance(new, Items) and isinstance(it, Fields) and "$import" in it:
                for inner in new:
                    placed.add(inner, line)
            else:
                placed.add(new, line)
        return placed


def check_file(path: str, node: Any, key: Any) -> None:
    if not os.path.isfile(path):
        raise fault_at(f"{path} is no regular file" if os.path.exists(path) else f"there is no file {path}", node, key)


def length(value: Any) -> int:
    return len(value) if isinstance(value, str) else 0


def member(whole: Any, fragment: str, node: Fields) -> Any:
    """Returns the object of this id or name in what was imported."""
    wanted = fragment.split("/")[-1]
    for it in whole if isinstance(whole, Items) else whole.get("$graph", [whole]) if isinstance(whole, Fields) else []:
        if isinstance(it, Fields) and any(str(it.get(key, "")).split("#")[-1].split("/")[-1] == wanted for key in ("id", "name")):
            return it
    raise fault_at(f"nothing there has the name {fragment}", node, "$import")


def fault_at(words: str, node: Any, key: Any) -> ImportFault:
    file, line = place_of(node, key) if node is not None else (None, None)
    return ImportFault(words, file, line)


def graph_of(whole: Any) -> Tuple[bool, Any]:
    """Returns whether a document is packed, and its processes."""
    packed = isinstance(whole, Fields) and "$graph" in whole
    return packed, whole["$graph"] if packed else [whole]
