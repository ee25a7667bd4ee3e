"""Rows of saved files as nearly all lines have them, many lines at once.

A line is plain where it has one record, quotes stand around whole fields alone, and around no number or date. One pattern
cuts plain lines into their parts, and each column of parts is read by Python's own loops. So this is a short way to what
`read_entry` of saved.py reads of the same lines; where it raises ValueError, it has said nothing, and that one is to be asked.
"""
from __future__ import annotations

import functools
import itertools
import operator
import re
from typing import Any, Callable, Iterable, Iterator, Sequence, TypeVar

from .days import ALL_DAYS, Days, Period, Point, read_high, read_low, read_point, read_row_days

T = TypeVar("T")
Parts = Sequence[str]
Reader = Callable[..., Iterable[Any]]

FIELD = r'[^",\r\n]*'
PATTERNS = {
    "INT": "(-?[0-9]{1,19})",
    "TEXT": rf'({FIELD}|"(?:[^"\r\n]|"")*")',
    "DATE": f"({FIELD})",
    "PERIOD": r'"\[([^,]*),([^)]*)\)"',
}
# The two ends where there is one range, else the whole field. In an end any signs may stand here, as in one of a period: the
# readers of days and points take no quotes and line ends.
DAYS = rf'(?:"\{{\[([^,]*),([^)]*)\)\}}"|({FIELD}|"[^"\r\n]*"))'

new_period: Callable[[tuple[Point, Point]], Period] = functools.partial(tuple.__new__, Period)  # type: ignore[assignment]


class Known(dict[str, T]):
    """What each text was read as, so that it is read once."""

    def __init__(self, read: Callable[[str], T]) -> None:
        super().__init__()
        self.read = read

    def __missing__(self, text: str) -> T:
        value = self[text] = self.read(text)
        return value

    def of(self, texts: Parts) -> Sequence[T]:
        """What the texts are read as."""
        if len(texts) == 1:
            return [self[texts[0]]]
        values: tuple[T, ...] = operator.itemgetter(*texts)(self)
        return values


def read_numbers(texts: Parts) -> list[int]:
    """Numbers, by texts that are of their form but for their size."""
    numbers = list(map(int, texts))
    if not -(1 << 63) <= min(numbers) <= max(numbers) < 1 << 63:
        raise ValueError("a number has more than 64 bits")
    return numbers


def read_texts(texts: Parts) -> Parts:
    """Texts, by their fields. Bytes that are no UTF-8 were read as halves of characters, which have no bytes."""
    joined = "".join(texts)
    joined.encode()
    if '"' not in joined:
        return texts
    return [text[1:-1].replace('""', '"') if text.startswith('"') else text for text in texts]


class PlainLines:
    """Reads plain lines of rows of columns of these kinds, in a file of that version."""

    def __init__(self, kinds: list[str], version: int) -> None:
        self.pattern = re.compile("^" + ",".join([*map(PATTERNS.__getitem__, kinds), DAYS]) + r"\r?\n", re.MULTILINE)
        self.points, self.lows, self.highs = Known(read_point), Known(read_low), Known(read_high)
        self.others = Known(lambda text: read_row_days(text.strip('"'), version))
        self.version = version
        readers: dict[str, Reader] = {
            "INT": read_numbers, "TEXT": read_texts, "DATE": self.points.of, "PERIOD": self.read_periods}
        self.readers = [(readers[kind], 2 if kind == "PERIOD" else 1) for kind in kinds]

    def read(self, lines: list[str]) -> list[tuple[tuple[Any, ...], Days]]:
        """The rows of some lines, one at least; ValueError where one of them is not plain, or no row.

        A match has one whole line, since no part that is read has a line end. So all are plain where there are as many matches.
        """
        found = self.pattern.findall("".join(lines))
        if len(found) != len(lines):
            raise ValueError("a line is not plain")
        parts: Iterator[Parts] = zip(*found)
        values = [read(*itertools.islice(parts, count)) for read, count in self.readers]
        return list(zip(zip(*values), self.read_days(*parts)))

    def read_periods(self, starts: Parts, ends: Parts) -> Iterator[Period]:
        """Periods, by the texts of their ends."""
        return map(new_period, zip(self.points.of(starts), self.points.of(ends)))

    def read_days(self, lows: Parts, highs: Parts, others: Parts) -> list[Days]:
        """The days of rows, by the ends of those that have one range, and the fields of the others."""
        if self.version == 2 and others.count("*") == len(others):
            return [ALL_DAYS] * len(others)
        if not any(others):
            return self.read_ranges(lows, highs)
        some_lows = [low or other and "2000-01-01" for low, other in zip(lows, others)]
        days = self.read_ranges(some_lows, [high or other and "infinity" for high, other in zip(highs, others)])
        for at, text in enumerate(others):
            if text:
                days[at] = self.others[text]
        return days

    def read_ranges(self, low_texts: Parts, high_texts: Parts) -> list[Days]:
        """Sets of one range each."""
        lows, highs = self.lows.of(low_texts), self.highs.of(high_texts)
        days = list(map(Days, zip(zip(lows, highs))))
        if any(map(operator.ge, lows, highs)) or (self.version == 2 and "-infinity" in low_texts and ALL_DAYS in days):
            raise ValueError("no days of a row")
        return days
