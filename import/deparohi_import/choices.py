"""What the user chooses for an import besides its files."""

from typing import NamedTuple, Optional, Tuple

ENGINES = ("docker", "podman", "apptainer")


class Choices(NamedTuple):
    """An engine that runs containers, what tools may use, and variables that are put into the document."""

    container: Optional[str] = None
    cores: Optional[int] = None
    ram: Optional[int] = None
    environment: Tuple[Tuple[str, str], ...] = ()
    evaluates: bool = True
    outside: bool = False
