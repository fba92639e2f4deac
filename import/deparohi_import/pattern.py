"""Regular expressions that are compiled when they are first asked: most imports ask few of them, and compiling takes a fifth of a start."""

import re
from typing import Any

METHODS = ("match", "fullmatch", "search", "finditer", "sub", "split")


class Pattern:
    """A regular expression with the methods of a compiled one."""

    def __init__(self, text: Any, flags: int = 0) -> None:
        self.text, self.flags = text, flags

    def __getattr__(self, name: str) -> Any:
        """Compiles it where a method is asked for that it has not yet."""
        if name not in METHODS:
            raise AttributeError(name)
        compiled = re.compile(self.text, self.flags)
        self.__dict__.update({it: getattr(compiled, it) for it in METHODS})
        return self.__dict__[name]
