"""What stopped a run, as exceptions; docs/LANGUAGE.md, "Faults" and "Other ends of a run", has them all."""
from __future__ import annotations

from typing import TYPE_CHECKING, NamedTuple, Optional

if TYPE_CHECKING:
    from .program import Result


class Place(NamedTuple):
    """A place in a script: a line and a column, both from 1; a column counts characters."""

    line: int
    column: int


class OngqError(Exception):
    """A run that did not come to its end. Its str is what the program writes to standard error."""

    def __init__(self, status: int, line: str, place: Optional[Place], words: str, snippet: str, results: Result) -> None:
        super().__init__(status, line, place, words, snippet, results)
        self.status = status    # the exit status; where a signal ended the program, its number below 0
        self.line = line        # the line of the fault in the output, as `fault syntax statement 2`, or nothing
        self.place = place      # where it stands in the script, where it stands somewhere
        self.words = words      # what is wrong there
        self.snippet = snippet  # the line of the script and a mark under the place, or nothing
        self.results = results  # what the statements before it wrote

    def __str__(self) -> str:
        place = f"{self.place.line}:{self.place.column}: " if self.place else ""
        return "\n".join([place + self.words, *self.snippet.splitlines()])


class ScriptFault(OngqError):
    """Status 3: the script cannot be read, and nothing was carried out."""


class CheckFault(OngqError):
    """Status 4: a statement names what is not there, or has other kinds or counts than are wanted."""


class FileFault(OngqError):
    """Status 5: a file that is not there, or holds something else."""


class DeviceFault(OngqError):
    """Status 6, 7 or 8: the files or a pipe failed."""


class MemoryFault(OngqError, MemoryError):
    """Status 9: the program ran out of memory."""


CLASSES: dict[int, type[OngqError]] = {3: ScriptFault, 4: CheckFault, 5: FileFault, 6: DeviceFault, 7: DeviceFault, 8: DeviceFault,
                                       9: MemoryFault}
