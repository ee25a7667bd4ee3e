"""Saved files: their bytes, and what they hold; docs/FORMATS.md says what stands in them."""
from __future__ import annotations

import contextlib
import csv
import gc
import itertools
import os
import re
from typing import IO, TYPE_CHECKING, Any, Callable, Iterable, Iterator, NamedTuple, Optional, Sequence, Union

from .days import ALL_DAYS, Day, Days, Moment, Period, Point, day_of, read_period, read_point, read_row_days
from .frames import Column, dataframe
from .plain import PlainLines

if TYPE_CHECKING:
    import pandas

Path = Union[str, "os.PathLike[str]"]
Row = tuple[Any, ...]
Entry = tuple[Row, Days]

AT_ONCE = 128  # lines that are read together: few, so that they stay near the processor
NUL = "\udc00"  # stands for NUL where csv cuts records: no text that was decoded has it

csv.field_size_limit(1 << 30)


class Fault(ValueError):
    """What a file has that no saved file has: `header`, `record N`, or `row count: said N found M`."""


def value_at(value: Any, day: Day) -> Any:
    """What a value is on a day."""
    return value.at(day) if isinstance(value, (Point, Period)) else value


class Saved(NamedTuple):
    """What a saved file holds: its columns, and its rows with the days on which each is there."""

    columns: Sequence[Column]
    entries: Sequence[Entry]

    def rows(self, moment: Moment) -> list[Row]:
        """The rows as of a day, each once, in the order of PRINT."""
        day = day_of(moment)
        return sorted({tuple([value_at(value, day) for value in row]) for row, days in self.entries if days.hold(day)})

    def to_dataframe(self, moment: Moment) -> pandas.DataFrame:
        """The rows as of a day as a DataFrame. ImportError where pandas is not there."""
        return dataframe(self.columns, self.rows(moment))


def read_column(field: str) -> Column:
    """The column of a field of the header."""
    parts = re.fullmatch("([A-Za-z_][A-Za-z0-9_]*):(INT|TEXT|DATE|PERIOD)", field)
    if not parts:
        raise Fault("header")
    return Column(parts[1].lower(), parts[2])


def read_count(fields: list[str]) -> int:
    """The number of rows of a record that has it alone; ValueError for any other record."""
    parts = re.fullmatch("rows:(0|[1-9][0-9]*)", fields[0]) if len(fields) == 1 else None
    if not parts or int(parts[1]) >= 1 << 64:
        raise ValueError("no number of rows")
    return int(parts[1])


def read_header(records: Iterator[list[str]]) -> tuple[list[Column], Optional[int]]:
    """The columns, and the number of rows where it stands before them, as in version 1."""
    first: list[str] = next(records, [])
    try:
        said = None if first == ["ongq:2"] else read_count(first[-1:])
    except ValueError:
        raise Fault("header") from None
    columns = [read_column(field) for field in (next(records, []) if said is None else first[:-1])]
    if not 1 <= len(columns) <= 64:
        raise Fault("header")
    return columns, said


def read_number(text: str) -> int:
    """The number of a cell; ValueError for any other text. The zeros before it may be more digits than Python reads."""
    parts = re.fullmatch("(-?)0*([0-9]{1,19})", text)
    number = int(parts[1] + parts[2]) if parts else 1 << 63
    if not -(1 << 63) <= number < 1 << 63:
        raise ValueError(f"no number: {text}")
    return number


def read_text(text: str) -> str:
    """The text of a cell. Bytes that are no UTF-8 were read as halves of characters, which have no bytes."""
    text.encode()
    return text


READERS: dict[str, Callable[[str], Any]] = {"INT": read_number, "TEXT": read_text, "DATE": read_point, "PERIOD": read_period}


def read_entry(fields: list[str], kinds: list[str], version: int) -> Entry:
    """The row of a record, with its days; ValueError where it is none."""
    if len(fields) != len(kinds) + 1:
        raise ValueError("another number of fields")
    return tuple([READERS[kind](field) for kind, field in zip(kinds, fields)]), read_row_days(fields[-1], version)


def without_nul(lines: Iterable[str]) -> Iterator[str]:
    """The lines for csv, which before Python 3.11 refuses NUL."""
    return (line.replace("\0", NUL) for line in lines)


def with_nul(fields: list[str]) -> list[str]:
    """The fields of a record that csv has cut, with NUL again."""
    return [field.replace(NUL, "\0") for field in fields]


def records_of(lines: Iterable[str]) -> Iterator[list[str]]:
    """The records of lines; one without any byte does not count."""
    return map(with_nul, filter(None, csv.reader(without_nul(lines))))


def whole_records(some: list[str], following: Iterator[str]) -> Iterator[list[str]]:
    """The records that begin in some lines, the last with those of the following lines that belong to it."""
    reader = csv.reader(without_nul(itertools.chain(some, following)))
    for fields in reader:
        if fields:
            yield with_nul(fields)
        if reader.line_num >= len(some):
            return


class Rows:
    """Reads the rows behind the header. `number` is that of the next record, and `said` what the file says of the count."""

    def __init__(self, columns: list[Column], said: Optional[int]) -> None:
        self.kinds = [column.kind for column in columns]
        self.version, self.number = (2, 3) if said is None else (1, 2)
        self.said, self.found = said, 0
        self.plain = PlainLines(self.kinds, self.version)

    def read(self, lines: Iterator[str]) -> Iterator[list[Entry]]:
        """The rows, some at once, up to the first record that is a fault."""
        while some := list(itertools.islice(lines, AT_ONCE)):
            try:
                entries = self.read_plain(some)
            except ValueError:
                yield from ([entry] for fields in whole_records(some, lines) for entry in self.read_record(fields))
            else:
                self.number += len(entries)
                self.found += len(entries)
                yield entries
        if self.said is None:
            raise Fault(f"record {self.number}")
        if self.said != self.found:
            raise Fault(f"row count: said {self.said} found {self.found}")

    def read_plain(self, lines: list[str]) -> list[Entry]:
        """The rows of plain lines that stand before the number of rows."""
        if self.version == 2 and self.said is not None:
            raise ValueError("the number of rows came before")
        return self.plain.read(lines)

    def read_record(self, fields: list[str]) -> list[Entry]:
        """The row of a record, or nothing where it has the number of rows."""
        if self.version == 2 and self.said is not None:
            raise Fault(f"record {self.number - 1}")
        entries: list[Entry] = []
        try:
            if self.version == 2 and len(fields) == 1:
                self.said = read_count(fields)
            else:
                entries.append(read_entry(fields, self.kinds, self.version))
        except ValueError:
            raise Fault(f"record {self.number}") from None
        self.number += 1
        self.found += len(entries)
        return entries


def scan(lines: Iterable[str]) -> tuple[list[Column], Iterator[Entry]]:
    """The columns of a saved file, and its rows one after the other. A fault behind the header comes when it is met."""
    following = iter(lines)
    columns, said = read_header(records_of(following))
    return columns, itertools.chain.from_iterable(Rows(columns, said).read(following))


def open_saved(path: Path) -> IO[str]:
    """The file, opened so that scan reads it."""
    return open(path, encoding="utf-8-sig", errors="surrogateescape", newline="")


@contextlib.contextmanager
def without_collection() -> Iterator[None]:
    """Keeps Python from looking for garbage among the rows while they are made, of which none is garbage, and as they end.

    After freeze and unfreeze all objects count as old, without a look at them; those that others froze stay so.
    """
    was_enabled = gc.isenabled()
    gc.disable()
    try:
        yield
    finally:
        if was_enabled and not gc.get_freeze_count():
            gc.freeze()
            gc.unfreeze()
        if was_enabled:
            gc.enable()


def read(path: Path) -> Saved:
    """What a saved file of either version holds. Fault where it is none, OSError where it cannot be read."""
    with open_saved(path) as lines, without_collection():
        columns, entries = scan(lines)
        return Saved(columns, list(entries))


def record_text(fields: list[str]) -> str:
    """A record as ongq writes it. Python's writer leaves a carriage return without quotes."""
    quoted = ['"' + field.replace('"', '""') + '"' if re.search('[,"\r\n]', field) else field for field in fields]
    return (",".join(quoted) if fields != [""] else '""') + "\n"


def write(path: Path, saved: Saved) -> None:
    """Writes a saved file of version 2. ValueError where a name, a value or the days of a row would not be read again."""
    kinds = [read_column(str(column)).kind for column in saved.columns]
    with open(path, "w", encoding="utf-8", newline="") as file:
        file.write("ongq:2\n" + record_text([str(column) for column in saved.columns]))
        for row, days in saved.entries:
            fields = [str(value) for value in row] + ["*" if days == ALL_DAYS else str(days)]
            read_entry(fields, kinds, 2)
            file.write(record_text(fields))
        file.write(f"rows:{len(saved.entries)}\n")
