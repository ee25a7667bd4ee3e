"""Columns, and rows of them as a DataFrame of pandas, which is not imported before one is asked for."""
from __future__ import annotations

import datetime
from typing import TYPE_CHECKING, Any, NamedTuple, Sequence

from .days import Day

if TYPE_CHECKING:
    import pandas


class Column(NamedTuple):
    """A column of a saved file or of what is printed; its kind is INT, TEXT, DATE or PERIOD."""

    name: str
    kind: str

    def __str__(self) -> str:
        return f"{self.name}:{self.kind}"


def python_date(value: Any) -> Any:
    """A day as a date of Python, or as its text where Python has none: an infinity, or a year before 1."""
    try:
        return value.date() if isinstance(value, Day) else value
    except (OverflowError, ValueError):
        return str(value)


def days_series(values: list[Any]) -> pandas.Series:
    """Days: times of pandas where it has one for each, else objects, as a day without a date is no missing value.

    A Day is none of these objects, since pandas takes an int for a time soon after 1970 began.
    """
    import numpy
    import pandas

    dates = list(map(python_date, values))
    if all(isinstance(date, datetime.date) for date in dates):
        try:
            return pandas.Series(numpy.array(dates, dtype="datetime64[s]"))
        except ValueError:
            pass  # pandas before 2.0 has times from 1677 to 2262 alone
    return pandas.Series(dates, dtype=object)


def series(kind: str, values: list[Any]) -> pandas.Series:
    """The values of a column of the kind."""
    import pandas

    if kind == "DATE":
        return days_series(values)
    return pandas.Series(values if kind == "INT" else list(map(str, values)), dtype="int64" if kind == "INT" else object)


def dataframe(columns: Sequence[Column], rows: Sequence[tuple[Any, ...]]) -> pandas.DataFrame:
    """Rows as a DataFrame, in which several columns may have one name."""
    import pandas

    table = pandas.DataFrame({at: series(column.kind, [row[at] for row in rows]) for at, column in enumerate(columns)})
    return table.set_axis([column.name for column in columns], axis=1)
