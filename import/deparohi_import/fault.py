"""What stops an import."""

from typing import Optional


class ImportFault(Exception):
    """Something is wrong with what was to be imported; its text is for the user."""

    def __init__(self, words: str, file: Optional[str] = None, line: Optional[int] = None) -> None:
        self.words, self.file, self.line = words, file, line
        super().__init__(self.__str__())

    def __str__(self) -> str:
        if self.file is None:
            return self.words
        place = self.file if self.line is None else f"{self.file}:{self.line}"
        return f"{place}: {self.words}"
