"""Runs the program over a script, and tells apart what its statements write.

The output alone does not say where one PRINT ends: a row may look like the names of columns. So behind each statement that
writes, but the last of the script, stand three more on its line: they make a table, print it and drop it. Its one column
has a name that is drawn by chance for the run, of 128 bits, after the script and its files were written. So what is
printed of it stands nowhere else, and the names of the run are as they would be without. Where a fault stands is told
as if these statements were not there. A script that cannot be read is run once more as it is: nothing was carried out.
"""
from __future__ import annotations

import csv
import datetime
import functools
import io
import os
import pathlib
import re
import secrets
import shutil
import subprocess
import tempfile
import unicodedata
from dataclasses import dataclass, field
from typing import TYPE_CHECKING, Callable, Iterator, NamedTuple, Optional, Union

from .faults import CLASSES, OngqError, Place
from .frames import Column, dataframe
from .saved import Path, open_saved, read_header, records_of
from .scripts import Columns, Names, first_token, statements, text_of, tokens

if TYPE_CHECKING:
    import pandas

MOST_BYTES = 16_777_216  # that a script may have
Value = Union[int, str, datetime.date]


@functools.lru_cache(1 << 16)
def date_of(text: str) -> Value:
    """The date of a day's text, or the text where Python has no such date: an infinity, or a year before 1."""
    try:
        return datetime.date.fromisoformat(text)
    except ValueError:
        return text


READERS: dict[str, Callable[[str], Value]] = {"INT": int, "DATE": date_of}


@dataclass
class Table:
    """What one PRINT, VALID, TABLES or EXPLAIN wrote. The plan of EXPLAIN is a column `plan` with a row for each line."""

    statement: str
    text: str = field(repr=False)
    schema: list[Column] = field(repr=False)

    @property
    def columns(self) -> list[str]:
        """The names of the columns."""
        return [column.name for column in self.schema]

    @functools.cached_property
    def rows(self) -> list[tuple[Value, ...]]:
        """The rows: an int for INT, a date for DATE, or its text where Python has none, and the text for TEXT and PERIOD."""
        if self.statement == "EXPLAIN":
            return [(line,) for line in self.text.splitlines()]
        readers = [READERS.get(column.kind, str) for column in self.schema]
        records = records_of(io.StringIO(self.text, newline=""))
        next(records)
        return [tuple([read(value) for read, value in zip(readers, fields)]) for fields in records]

    def to_dataframe(self) -> pandas.DataFrame:
        """The rows as a DataFrame. ImportError where pandas is not there."""
        return dataframe(self.schema, self.rows)


@dataclass
class Result:
    """What a run wrote: a table for each statement that writes, in order, and the names of the files that it saved."""

    tables: list[Table] = field(default_factory=list)
    saved: list[str] = field(default_factory=list)

    def __len__(self) -> int:
        return len(self.tables)

    def __iter__(self) -> Iterator[Table]:
        return iter(self.tables)

    def __getitem__(self, at: int) -> Table:
        return self.tables[at]


class Ended(NamedTuple):
    """How a run of the program ended."""

    status: int
    output: bytes
    told: str


def find_program(program: Optional[Path] = None) -> str:
    """The path of the program: the given one, that of the variable ONGQ, that of PATH, or that of the clone with this file."""
    given = os.fspath(program) if program else os.environ.get("ONGQ", "")
    clone = pathlib.Path(__file__).resolve().parents[3]
    in_clone = [clone / "dist" / "ongq-x86_64-linux", clone / "ongq"] if (clone / "interop" / "python" / "ongq").is_dir() else []
    for name in [given] if given else ["ongq", *map(str, in_clone)]:
        found = shutil.which(name)
        if found:
            return os.path.abspath(found)
    raise FileNotFoundError(f"no program {given or 'ongq'}: install it, or name it by program= or by the variable ONGQ")


def run(script: Union[str, bytes], folder: Optional[Path] = None, *, workers: int = 1, program: Optional[Path] = None) -> Result:
    """Runs a script in a folder, or in a temporary one, and gives what it wrote.

    OngqError tells how the run ended, where that was not its end; FileNotFoundError that there is no program; ValueError that
    workers are not 1 to 64, or that the script is too long for the statements that tell its tables apart.
    """
    if not 1 <= workers <= 64:
        raise ValueError("workers are 1 to 64")
    source = script.encode() if isinstance(script, str) else script
    words = [find_program(program), "run", "--workers", str(workers)]
    if folder is None:
        with tempfile.TemporaryDirectory(prefix="ongq-") as made:
            return Run(source, made).result(words)
    return Run(source, folder).result(words)


def call(words: list[str], source: bytes, folder: Path) -> Ended:
    """One run of the program."""
    done = subprocess.run(words, input=source, capture_output=True, cwd=folder)
    return Ended(done.returncode, done.stdout, done.stderr.decode("utf-8", "replace"))


class Run:
    """A script and the folder that it is run in."""

    def __init__(self, source: bytes, folder: Path) -> None:
        self.source, self.folder = source, folder
        self.statements = list(statements(source))
        self.name = "mark_" + secrets.token_hex(16)
        self.mark = f" CREATE TABLE {self.name} ({self.name} INT); PRINT {self.name} AS OF DATE '2000-01-01'; DROP {self.name};"
        self.headers = self.opened_headers()

    def result(self, words: list[str]) -> Result:
        """What the run wrote; OngqError where it did not come to its end."""
        marked = self.marked()
        if len(self.source) <= MOST_BYTES < len(marked):
            raise ValueError(f"the script is too long: with marks it has more than {MOST_BYTES} bytes")
        ended = call(words, marked, self.folder)
        if ended.status == 3:
            ended = call(words, self.source, self.folder)
        *pieces, rest = ended.output.split(self.name.encode() + b"\n")
        if ended.status == 0:
            return self.made(len(self.statements), pieces + [rest] if rest else pieces)
        raise self.error(ended, pieces, rest.decode("utf-8", "replace").rstrip("\n"))

    def marked(self) -> bytes:
        """The script with the three statements behind each that writes, but the last."""
        pieces, start = [], 0
        for statement in self.statements[:-1]:
            if statement.writes:
                pieces += [self.source[start:statement.end], self.mark.encode()]
                start = statement.end
        return b"".join([*pieces, self.source[start:]])

    def opened_headers(self) -> dict[str, Columns]:
        """The columns of each saved file that is there before the run and that a statement opens."""
        found: dict[str, Columns] = {}
        for statement in self.statements:
            if statement.word == "OPEN":
                name = text_of([*tokens(statement.source), "", "", ""][3])
                try:
                    with open_saved(os.path.join(self.folder, name)) as lines:
                        found[name] = read_header(records_of(lines))[0]
                except (OSError, ValueError, csv.Error):
                    pass  # the run says what is wrong with it, or saves it before
        return found

    def made(self, carried_out: int, pieces: list[bytes]) -> Result:
        """The tables of the first statements, of which each that writes wrote a piece."""
        names, left, result = Names(self.headers.__getitem__), iter(pieces), Result()
        for statement in self.statements[:carried_out]:
            columns = names.carry_out(statement)
            if statement.writes:
                result.tables.append(Table(statement.word, next(left).decode(), columns))
            if statement.word == "SAVE":
                result.saved.append(text_of(list(tokens(statement.source))[3]))
        return result

    def error(self, ended: Ended, pieces: list[bytes], line: str) -> OngqError:
        """The exception for a run that did not come to its end, in the words of its script."""
        number = re.match(r"(fault [a-z0-9 ]*\bstatement )([0-9]+)", line) if ended.status in (4, 5) else None
        carried_out = self.carried_out(pieces)
        if number:
            carried_out = int(number[2]) - 3 * len(pieces) - 1
            line = f"{number[1]}{carried_out + 1}{line[number.end():]}"
        place, words, snippet = self.told(ended)
        line = line if 2 <= ended.status <= 5 else ""
        return CLASSES.get(ended.status, OngqError)(ended.status, line, place, words, snippet, self.made(carried_out, pieces))

    def carried_out(self, pieces: list[bytes]) -> int:
        """How many statements were carried out for sure, by the pieces that are whole."""
        writing = [statement.number for statement in self.statements if statement.writes]
        return writing[len(pieces) - 1] if pieces else 0

    def told(self, ended: Ended) -> tuple[Optional[Place], str, str]:
        """The place, the words and the drawing that standard error tells, as they are of the script without marks."""
        if ended.status < 0:
            return None, f"signal {-ended.status} ended the program", ""
        lines = ended.told.split("\n")[:-1] or [f"the program ended with {ended.status}"]
        found = re.fullmatch("([0-9]+):([0-9]+): (.*)", lines[-3]) if len(lines) >= 3 else None
        if not found:
            return None, lines[-1], ""
        place = Place(int(found[1]), int(found[2]))
        if ended.status == 3:
            return place, found[3], "\n".join(lines[-2:])
        before = self.line(self.marked(), place.line)[:place.column - 1]
        place = Place(place.line, len(before.replace(self.mark, "")) + 1)
        return place, found[3], drawn(self.line(self.source, place.line), place.column)

    @staticmethod
    def line(source: bytes, number: int) -> str:
        """A line of a script."""
        return source.split(b"\n")[number - 1].decode("utf-8", "replace")


def shown(text: str) -> str:
    """The text as a terminal may show it."""
    return "".join("?" if sign != "\t" and (unicodedata.category(sign) == "Cc" or sign == "\ufffd") else sign for sign in text)


def drawn(line: str, column: int) -> str:
    """The line, or of a long one a part, and a mark below the token at the column, as the program draws it."""
    before, behind = shown(line[:column - 1]), shown(line[column - 1:].rstrip("\r"))
    dots = "..." if len(before) > 60 else ""
    before = before[-40:] if dots else before
    room = 100 - len(before)
    blanks = "".join(sign if sign == "\t" else " " for sign in dots + before)
    size = max(1, min(len(first_token(line[column - 1:])), room))
    return f"  {dots}{before}{behind[:room]}{'...' if len(behind) > room else ''}\n  {blanks}^{'~' * (size - 1)}"
