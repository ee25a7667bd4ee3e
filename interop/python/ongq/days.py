"""Days, points, periods and sets of days, and their texts; docs/FORMATS.md says what each is."""
from __future__ import annotations

import bisect
import datetime
import functools
import operator
import re
from typing import NamedTuple, Union

# Day 1 of Python's calendar is 0001-01-01, and day 0 of ongq's 1970-01-01; 400 years have one number of days.
EPOCH = datetime.date(1970, 1, 1).toordinal()
CYCLE = 146_097


class Day(int):
    """A day by its number from 1970-01-01, or one of the two infinities, whose numbers lie beside those of all days."""

    def __str__(self) -> str:
        return day_text(int(self))

    __repr__ = __str__

    def date(self) -> datetime.date:
        """The day for Python, which has those from 0001-01-01 to 9999-12-31; for others OverflowError or ValueError."""
        return datetime.date.fromordinal(self + EPOCH)


FIRST, LAST = Day(-4_371_587), Day(2_932_896)
MINUS_INFINITY, INFINITY = Day(FIRST - 1), Day(LAST + 1)
Moment = Union[Day, datetime.date, str]


@functools.lru_cache(1 << 16)
def day_text(number: int) -> str:
    """The text of a day, or of an infinity, by its number."""
    if number in (MINUS_INFINITY, INFINITY):
        return "infinity" if number > 0 else "-infinity"
    cycles = max(0, -(number + EPOCH - 1) // CYCLE + 1)
    date = datetime.date.fromordinal(number + EPOCH + cycles * CYCLE)
    year = date.year - 400 * cycles
    return f"{year:04}{date:-%m-%d}" if year >= 0 else f"-{-year:06}{date:-%m-%d}"


DAY = re.compile("([0-9]{4}|-00[0-9]{4})-([0-9]{2})-([0-9]{2})")


@functools.lru_cache(1 << 16)
def read_day(text: str) -> Day:
    """The day of a day text; ValueError for any other text."""
    if text in ("-infinity", "infinity"):
        return INFINITY if text == "infinity" else MINUS_INFINITY
    parts = DAY.fullmatch(text)
    if not parts or parts[1] == "-000000":
        raise ValueError(f"no day: {text}")
    year = int(parts[1])
    cycles = max(0, -(year - 1) // 400 + 1)
    date = datetime.date(year + 400 * cycles, int(parts[2]), int(parts[3]))
    return Day(date.toordinal() - EPOCH - cycles * CYCLE)


def read_reference_day(text: str) -> Day:
    """The day of a day text other than those of the infinities."""
    day = read_day(text)
    if not FIRST <= day <= LAST:
        raise ValueError(f"no day: {text}")
    return day


def day_of(moment: Moment) -> Day:
    """The day as of which rows are asked, which is none of the infinities."""
    if isinstance(moment, datetime.date):
        return Day(moment.toordinal() - EPOCH)
    return read_reference_day(str(moment))


class Span(NamedTuple):
    """A period as it is on a day. It is empty where its end is not after its start."""

    start: Day
    end: Day

    def __str__(self) -> str:
        return f"[{self.start},{self.end})"


class Point(NamedTuple):
    """The point low+high: low up to that day, then the day that is asked, and high from that day on."""

    low: Day
    high: Day

    def at(self, day: Day) -> Day:
        """The day that the point is on a day."""
        return min(max(day, self.low), self.high)

    def __str__(self) -> str:
        low = "" if self.low == MINUS_INFINITY else str(self.low)
        high = "" if self.high == INFINITY else str(self.high)
        if self.low == self.high:
            return str(self.low)
        return f"{low}+{high}" if low or high else "now"


class Period(NamedTuple):
    """A period whose two ends are points."""

    start: Point
    end: Point

    def at(self, day: Day) -> Span:
        """The period as it is on a day."""
        return Span(self.start.at(day), self.end.at(day))

    def __str__(self) -> str:
        return f"[{self.start},{self.end})"


Range = tuple[Day, Day]


class Days(tuple[Range, ...]):
    """A set of days: its ranges (from, before), which rise and do not touch. One that goes to the end is before INFINITY."""

    __slots__ = ()

    def hold(self, day: int) -> bool:
        """Whether the day is one of them."""
        at = bisect.bisect_right(self, (day, INFINITY + 1)) - 1
        return at >= 0 and day < self[at][1]

    def __contains__(self, day: object) -> bool:
        return isinstance(day, int) and self.hold(day)

    def __str__(self) -> str:
        ends = ((MINUS_INFINITY if low == FIRST else low, high) for low, high in self)
        return "{" + ",".join(f"[{low},{high})" for low, high in ends) + "}"


ALL_DAYS = Days([(FIRST, INFINITY)])


@functools.lru_cache(1 << 16)
def read_point(text: str) -> Point:
    """The point of a point text; ValueError for any other text."""
    if text == "now":
        return Point(MINUS_INFINITY, INFINITY)
    low, plus, high = text.partition("+")
    if not plus:
        return Point(read_day(text), read_day(text))
    point = Point(read_reference_day(low) if low else MINUS_INFINITY, read_reference_day(high) if high else INFINITY)
    if text == "+" or point.low >= point.high:
        raise ValueError(f"no point: {text}")
    return point


@functools.lru_cache(1 << 16)
def read_period(text: str) -> Period:
    """The period of a period text; ValueError for any other text."""
    parts = re.fullmatch(r"\[([^,]*),([^,)]*)\)", text)
    if not parts:
        raise ValueError(f"no period: {text}")
    return Period(read_point(parts[1]), read_point(parts[2]))


@functools.lru_cache(1 << 16)
def read_low(text: str) -> Day:
    """The first day of a range by its text."""
    if text == "-infinity":
        return FIRST
    day = read_reference_day(text)
    if day == FIRST:
        raise ValueError(f"no lower end: {text}")
    return day


@functools.lru_cache(1 << 16)
def read_high(text: str) -> Day:
    """The day before which a range ends, by its text."""
    return INFINITY if text == "infinity" else read_reference_day(text)


@functools.lru_cache(1 << 16)
def read_days(text: str) -> Days:
    """The days of a set text; ValueError for any other text."""
    if text == "{}":
        return Days()
    if not (text.startswith("{[") and text.endswith(")}")):
        raise ValueError(f"no days: {text}")
    ends: list[Day] = []
    for part in text[2:-2].split("),["):
        low, _, high = part.partition(",")
        ends += (read_low(low), read_high(high))
    if any(map(operator.ge, ends, ends[1:])):
        raise ValueError(f"no days: {text}")
    return Days(zip(ends[::2], ends[1::2]))


def read_row_days(text: str, version: int) -> Days:
    """The days of a row of a saved file of the version; ValueError for any other text."""
    if version == 2 and text == "*":
        return ALL_DAYS
    days = read_days(text)
    if not days or (version == 2 and days == ALL_DAYS):
        raise ValueError(f"no days of a row: {text}")
    return days
