"""Versions of documents: v1.0 and v1.1 by the importer's own rules, draft-3 by cwl-upgrader's library where it is installed.

What v1.0 and v1.1 say otherwise than v1.2 is little, and is rewritten where it is met: names of requirements that were cwltool's
(`names`), `loadContents` in a binding, which the runner takes there too, and the `inputBinding` of a workflow's input, which had
no meaning. A v1.0 tool may use the network and sees whole listings of folders; so does each tool of this runner.
"""

from typing import Any

from .fault import ImportFault
from .marked import Fields, Items

OWN = ("v1.0", "v1.1", "v1.2")
OLDER = ("draft-3", "cwl:draft-3")


def current(document: Fields) -> Fields:
    """Returns a document as one of v1.0 to v1.2, or raises an ImportFault that names its version."""
    version = document.get("cwlVersion")
    if version is None:
        raise ImportFault("the document says no cwlVersion", document.file, document.line)
    if version in OWN:
        return document
    if version in OLDER:
        return of_draft_3(document)
    words = f"cwlVersion is {version}, and v1.0, v1.1 and v1.2 are read (draft-3 where cwl-upgrader is installed)"
    raise UnknownVersion(words, document.file, document.line_of("cwlVersion"))


class UnknownVersion(ImportFault):
    """A document of a version that isn't read."""


def of_draft_3(document: Fields) -> Fields:
    import contextlib
    import io
    import tempfile

    try:
        from cwlupgrader.main import upgrade_document
        from ruamel.yaml.comments import CommentedMap, CommentedSeq
    except ImportError:
        raise UnknownVersion("a draft-3 document is read where cwl-upgrader is installed, and here it isn't", document.file, document.line) from None

    def commented(value: Any) -> Any:
        if isinstance(value, Fields):
            made = CommentedMap()
            made.lc.filename = document.file
            for key, it in value.items():
                made[key] = commented(it)
            return made
        if isinstance(value, Items):
            return CommentedSeq([commented(it) for it in value])
        return value

    def marked(value: Any) -> Any:
        if isinstance(value, dict):
            fields = Fields(document.file, document.line)
            for key, it in value.items():
                fields.put(str(key), marked(it))
            return fields
        if isinstance(value, (list, tuple)):
            items = Items(document.file, document.line)
            for it in value:
                items.add(marked(it))
            return items
        return value

    try:
        with tempfile.TemporaryDirectory() as folder, contextlib.redirect_stderr(io.StringIO()):
            return marked(upgrade_document(commented(document), folder, target_version="v1.0"))
    except Exception as error:  # the library raises whatever its walk meets
        raise ImportFault(f"cwl-upgrader does not take this draft-3 document: {type(error).__name__}: {error}", document.file, document.line) from None
