"""Each value of the examples, and of the documents with JavaScript, in turn becomes something odd: the import ends with findings or a fault, and never otherwise."""

import copy
import os
import unittest
from typing import Any, Iterator, Tuple
from unittest import mock

from .helping import HERE, InFolder

from deparohi_import import loading
from deparohi_import.fault import ImportFault
from deparohi_import.folder import Folder
from deparohi_import.importing import Import
from deparohi_import.marked import Fields, Items
from deparohi_import.reading import read_file

ODD = (None, True, -1, 1.5, "", "#", "a/b", "$(inputs.x", "${1}", "http://example.org/x", [], {}, ["x"], {"class": "File"}, {"type": "record"}, {"$import": "absent"})


def places(value: Any) -> Iterator[Tuple[Any, Any]]:
    """Yields each entry of each object and list in a value."""
    for key, it in list(value.items() if isinstance(value, Fields) else enumerate(value)):
        yield value, key
        if isinstance(it, (Fields, Items)):
            yield from places(it)


def marked(odd: Any, file: str) -> Any:
    if isinstance(odd, dict):
        fields = Fields(file, 1)
        for key, it in odd.items():
            fields.put(key, it)
        return fields
    if isinstance(odd, list):
        items = Items(file, 1)
        for it in odd:
            items.add(it)
        return items
    return odd


class Mutations(InFolder):
    def ends(self, path: str, document: Any) -> None:
        def read(asked: str) -> Any:
            return document if asked == path else read_file(asked)

        with mock.patch.object(loading, "read_file", read):
            try:
                Import(Folder(self.path), set()).document(path)
            except ImportFault:
                pass

    def test_no_value_stops_the_importer(self) -> None:
        examples = [f"examples/{it}" for it in ("greet", "sort-all", "packed", "pipe", "boxed")]
        for name in [*examples, *(f"tests/javascript/{it}" for it in ("words", "steps"))]:
            path = os.path.join(HERE, f"{name}.cwl")
            whole = read_file(path)
            for at in range(len(list(places(whole)))):
                for odd in ODD:
                    document = copy.deepcopy(whole)
                    node, key = list(places(document))[at]
                    node[key] = marked(odd, path)
                    with self.subTest(name, place=key, odd=odd):
                        self.ends(path, document)


if __name__ == "__main__":
    unittest.main()
