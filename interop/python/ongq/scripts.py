"""Scripts as far as `run` has to know them: where statements end, which of them write, and of what kinds the columns are.

The program checks a script, and here nothing is checked: what a statement is taken for matters only once it was carried out.
"""
from __future__ import annotations

import re
from typing import Callable, Iterator, NamedTuple, Optional

from .frames import Column

# What may hold a `;` that ends no statement, and such a `;`. A text that is not closed goes on to the end.
BOUNDARY = re.compile(rb"'[^']*(?:'|\Z)|--[^\n]*|;")
TOKEN = re.compile(rb"\s+|--[^\n]*|([A-Za-z_][A-Za-z0-9_]*|-?[0-9]+|'(?:[^']|'')*'|<>|<=|>=|.)", re.DOTALL)

WRITING = ("PRINT", "VALID", "TABLES", "EXPLAIN")
KINDS = ("INT", "TEXT", "DATE", "PERIOD")
DATES, PERIODS = ("DATE", "ONGOING", "START", "END", "LEAST", "GREATEST"), ("PERIOD", "COMMON")
Columns = list[Column]


class Statement(NamedTuple):
    """A statement: its number from 1, its first word in capitals, and its bytes, which end behind its `;` at `end`."""

    number: int
    word: str
    source: bytes
    end: int

    @property
    def writes(self) -> bool:
        """Whether it writes to the output."""
        return self.word in WRITING


def statements(script: bytes) -> Iterator[Statement]:
    """The statements of a script that are ended by `;`."""
    start, number = 0, 0
    for found in BOUNDARY.finditer(script):
        if found[0] == b";":
            number += 1
            source = script[start:found.end()]
            yield Statement(number, next(tokens(source)).upper(), source, found.end())
            start = found.end()


def tokens(source: bytes) -> Iterator[str]:
    """The tokens of a statement."""
    for found in TOKEN.finditer(source):
        if found[1] is not None:
            yield found[1].decode("utf-8", "surrogateescape")


def first_token(line: str) -> str:
    """The token with which the rest of a line begins, as far as it stands on the line."""
    found = TOKEN.match(line.encode("utf-8", "surrogateescape"))
    return (found[1] or b"").decode("utf-8", "surrogateescape") if found else ""


def text_of(token: str) -> str:
    """What the token of a text says."""
    return token[1:-1].replace("''", "'")


def parts(words: list[str], *dividers: str) -> list[list[str]]:
    """The parts between the dividers that stand in no parentheses."""
    found: list[list[str]] = [[]]
    depth = 0
    for word in words:
        depth += (word == "(") - (word == ")")
        if depth == 0 and word.upper() in dividers:
            found.append([])
        else:
            found[-1].append(word)
    return found


def core_of(query: list[str]) -> tuple[list[str], list[str]]:
    """What stands behind SELECT and behind FROM in the first core of a query, up to its WHERE."""
    upper = [word.upper() for word in query]
    start = upper.index("FROM")
    ends = [at for at in range(start, len(query)) if upper[at] in ("WHERE", "UNION", "EXCEPT", "INTERSECT", ";")
            or upper[at:at + 2] == ["AS", "OF"]]
    return query[1:start], query[start + 1:ends[0]]


class Names:
    """The columns of the names of a run, as its statements make them. `header` gives the columns of a saved file that was there."""

    def __init__(self, header: Callable[[str], Columns]) -> None:
        self.header = header
        self.columns: dict[str, Columns] = {}
        self.files: dict[str, Columns] = {}

    def carry_out(self, statement: Statement) -> Columns:
        """Takes note of what the statement makes. Gives the columns of what it writes, if it does."""
        if statement.word in ("INSERT", "DELETE", "UPDATE", "IMPORT"):
            return []
        words = list(tokens(statement.source))
        if statement.word == "TABLES":
            return [Column("name", "TEXT"), Column("what", "TEXT")]
        if statement.word == "VALID":
            return [Column("from", "DATE"), Column("to", "DATE")]
        if statement.word == "EXPLAIN":
            return [Column("plan", "TEXT")]
        if statement.word == "PRINT":
            return self.printed(words[1:])
        self.make(statement.word, words)
        return []

    def make(self, word: str, words: list[str]) -> None:
        """Takes note of a statement that makes or drops a name or a file."""
        name = words[1].lower()
        if word == "CREATE":
            self.columns[words[2].lower()] = [Column(part[0].lower(), part[1].upper()) for part in parts(words[4:-2], ",")]
        elif word in ("KEEP", "LIVE"):
            self.columns[name] = self.answer(words[3:])
        elif word == "OPEN":
            file = text_of(words[3])
            self.columns[name] = self.files[file] if file in self.files else self.header(file)
        elif word == "SAVE":
            self.files[text_of(words[3])] = self.columns[name]
        elif word == "DROP":
            del self.columns[name]

    def printed(self, words: list[str]) -> Columns:
        """The columns of a name or a query."""
        return self.answer(words) if words[0].upper() == "SELECT" else self.columns[words[0].lower()]

    def answer(self, query: list[str]) -> Columns:
        """The columns of a query, which are those of its first core."""
        items, tables = core_of(query)
        sight: list[tuple[str, Column]] = []
        for table in (part for piece in parts(tables, "JOIN") for part in parts(piece, ",")):
            name, *others = [word.lower() for word in table if word.upper() != "AS"]
            alias = others[0] if others and others[0] != "on" else name
            sight.extend((alias, column) for column in self.columns[name])
        if items == ["*"]:
            return [column for _, column in sight]
        return [item_column(item, number, sight) for number, item in enumerate(parts(items, ","), 1)]


def item_column(item: list[str], number: int, sight: list[tuple[str, Column]]) -> Column:
    """The column of an item of SELECT."""
    expression, *name = parts(item, "AS")
    seen = seen_column(expression, sight)
    kind = seen.kind if seen else kind_of(expression[0])
    own = seen.name if seen else f"c{number}"
    return Column(name[0][0].lower() if name else own, kind)


def seen_column(expression: list[str], sight: list[tuple[str, Column]]) -> Optional[Column]:
    """The column that an expression names, if it is a name."""
    words = [word.lower() for word in expression]
    found = [column for alias, column in sight if words == [column.name] or words == [alias, ".", column.name]]
    return found[0] if found else None


def kind_of(word: str) -> str:
    """The kind of an expression that is no name, by its first word."""
    if word.upper() in DATES:
        return "DATE"
    if word.upper() in PERIODS:
        return "PERIOD"
    return "TEXT" if word.startswith("'") else "INT"
