"""usage: interop/draw FILE.. [--title TEXT] [--from DAY --to DAY] [--text | --html | --asked]

Draws a saved file of ongq, of either version, to standard output: as an SVG; with --text for a terminal, as wide as it is; with
--html as one page that shows the rows as of a day, beside their time lines, and needs nothing else. A row is a lane on
the days on which it is there, with a line for each of its periods and dates. --from and --to are the first day that is drawn
and the one behind the last; without them all days are drawn on which something begins, ends or stands still, and some around.
The title is --title, or the name of the file.

With --asked, an SVG of one file or several: the days that are asked across, the days of the periods up. So a fixed period is a
band, one that ends with now a triangle, and a row without a period a column on the days on which it is there.

Ends with 0; with 5 where a file is none; with 2 at other words. The same files and words give the same bytes.
"""
from __future__ import annotations

import argparse
import html
import json
import os
import pathlib
import shutil
import sys
import unicodedata
from typing import Any, Iterable, Iterator, NamedTuple, Optional, Sequence

from .days import ALL_DAYS, FIRST, INFINITY, LAST, Day, Days, Period, Point, read_day, read_reference_day
from .frames import Column
from .saved import Entry, Saved, read


class Window(NamedTuple):
    """The days that are drawn, from low to before high, over a width."""

    low: Day
    high: Day
    width: float

    def place(self, day: int) -> float:
        """Where the day begins; the edge for one beside the window."""
        return (min(max(day, self.low), self.high) - self.low) * self.width / (self.high - self.low)


class Part(NamedTuple):
    """Days of one sort: `sure` days are in the period on each day that one asks; those that it `grows` by only on later
    days, those that it `shrinks` by only up to them; a point `moves` over days, and `stays` on one."""

    sort: str
    low: Day
    high: Day


class Line(NamedTuple):
    """One value of a row over time, with the days at which a point of it begins to move or stops."""

    label: str
    parts: list[Part]
    turns: list[Day]


class Lane(NamedTuple):
    """A row: its numbers and texts, the days on which it is there, and a line for each of its dates and periods."""

    label: str
    days: Days
    lines: list[Line]


def places_of(text: str) -> int:
    """The places that a text takes on a line: a wide sign, as of Chinese, takes two. No font is asked, as none may be there."""
    return sum(2 if unicodedata.east_asian_width(sign) in "WF" else 1 for sign in text)


def widest(labels: Iterable[str], most: int) -> int:
    """The places of the longest label, up to a limit."""
    return min(most, max(map(places_of, labels), default=0))


def labels_of(all_lanes: list[Lane]) -> list[str]:
    return [label for lane in all_lanes for label in (lane.label, *("  " + one.label for one in lane.lines))]


def is_day(day: Day) -> bool:
    return FIRST <= day <= LAST


def turns(points: list[Point]) -> list[Day]:
    return [day for point in points if point.low < point.high for day in point if is_day(day)]


def parts_of(value: Any) -> list[Part]:
    """The parts of a point or a period that have days."""
    if isinstance(value, Point):
        return [Part("moves", *value) if value.low < value.high else Part("stays", value.low, Day(value.low + 1))]
    (a, b), (c, f) = value.start, value.end
    parts = [Part("shrinks", a, min(b, c)), Part("sure", b, c), Part("grows", max(b, c), f)]
    return [part for part in parts if part.low < part.high]


def line(name: str, value: Any) -> Line:
    return Line(f"{name} {value}", parts_of(value), turns([value] if isinstance(value, Point) else list(value)))


def is_said(column: Column) -> bool:
    """Whether the values of the column stand in the name of a lane. Those of the others have lines."""
    return column.kind in ("INT", "TEXT")


def names_said(saved: Saved) -> str:
    """What the names of the lanes are made of: the names of the columns."""
    return ", ".join(column.name for column in saved.columns if is_said(column))


def lanes(saved: Saved) -> list[Lane]:
    """A lane for each row, in rising order of what the rows are on the first day of all."""
    made = []
    for row, days in sorted(saved.entries, key=lambda entry: (entry[0], entry[1])):
        cells = list(zip(saved.columns, row))
        said = [str(value) for column, value in cells if is_said(column)]
        moving = [line(column.name, value) for column, value in cells if not is_said(column)]
        made.append(Lane(", ".join(said), days, moving))
    return made


def marked_days(entries: Sequence[Entry]) -> list[Day]:
    """The days at which a row comes or goes, or a point of it stands still."""
    found = {day for _, days in entries for ends in days for day in ends}
    for row, _ in entries:
        for value in row:
            points = [value] if isinstance(value, Point) else value if isinstance(value, Period) else []
            found.update(day for point in points for day in point)
    return sorted(day for day in found if FIRST < day <= LAST)


def window(entries: Sequence[Entry], low: Optional[str], high: Optional[str], width: float) -> Window:
    """The window that is asked for, or one with all marked days. ValueError where it has no days."""
    days = marked_days(entries) or [read_day("2000-01-01"), read_day("2001-01-01")]
    around = max(15, (days[-1] - days[0]) * 3 // 20)
    first = read_reference_day(low) if low else Day(max(FIRST, days[0] - around))
    last = read_reference_day(high) if high else Day(min(INFINITY, days[-1] + around))
    if first >= last:
        raise ValueError(f"no day is from {first} on and before {last}")
    return Window(first, last, width)


def first_of_month(number: int) -> Day:
    """The first day of a month by its number from the first one of the year 0."""
    year, month = divmod(number, 12)
    return read_day(f"{year:04}-{month + 1:02}-01" if year >= 0 else f"-{-year:06}-{month + 1:02}-01")


def month_of(day: Day) -> int:
    text = str(day)
    return int(text[:-6]) * 12 + int(text[-5:-3]) - 1


def ticks(over: Window, most: int) -> list[tuple[Day, str]]:
    """The first days of months or years in the window, at most so many, and how they are called; of a short one weeks too."""
    last = month_of(Day(over.high - 1))
    if over.high - over.low <= 7 * most:
        days = [Day(first_of_month(number) + add) for number in range(month_of(over.low), last + 1) for add in (0, 7, 14, 21)]
        found = [day for day in days if over.low <= day < over.high]
        names = {day: str(day)[-5:] for day in found} | {day: str(day) for day in found[:1]}
        return [(day, str(day)[:-3] if str(day).endswith("-01") else names[day]) for day in found]
    for step in (1, 3, 6, 12, 24, 60, 120, 240, 600, 1200, 2400, 6000, 12000, 24000, 60000):
        first = -(-month_of(over.low) // step) * step
        found = [first_of_month(number) for number in range(first, last + 1, step)]
        found = [day for day in found if over.low <= day < over.high]
        if len(found) <= most:
            return [(day, str(day)[:-3] if step < 12 else str(day)[:-6]) for day in found]
    return []


# The SVG. Its colours are classes, so that a reader whose system is dark sees them on a dark ground.

HEIGHT, LINE, SIGN = 18, 16, 6.6
NAME, LABEL = 42, 64  # the places of a name, which is cut, and of a date or period, which seldom is
LIGHT = {"ink": "#222", "soft": "#555", "ground": "#fff", "grid": "#e8e8e8", "sure": "#2d6cb0", "shrinks": "#b06a2d", "turn": "#b0302d",
         "of0": "#2d6cb0", "of1": "#b06a2d", "of2": "#2f7d46", "of3": "#85479c", "of4": "#6d6d1f"}
DARK = {"ink": "#e2e2e2", "soft": "#aaa", "ground": "#15181c", "grid": "#30353b", "sure": "#72aee8", "shrinks": "#e0a062", "turn": "#f08a86",
        "of0": "#72aee8", "of1": "#e0a062", "of2": "#74c68c", "of3": "#c99be0", "of4": "#c9c96a"}
FILES = 5
FORMS = """text { font: 12px sans-serif } .title { font-size: 14px; font-weight: bold } .name { font-weight: bold } .small { font-size: 11px }
.tick { text-anchor: middle } .end { text-anchor: end } .there { fill-opacity: .14 } .grows { fill: url(#grows) } .shrinks { fill: url(#shrinks) }
.moves, .hatch, .day { fill: none } .moves { stroke-dasharray: 2 3 } .day { stroke-dasharray: 5 4 } .turn { stroke-width: 1.5 }
.shape { fill-opacity: .28; stroke-width: 1.5; stroke-linejoin: round } .column { fill-opacity: .1; stroke: none } .edge { stroke-dasharray: 3 3 }"""
PATTERNS = """<pattern id="grows" width="6" height="6" patternUnits="userSpaceOnUse"><rect class="ground" width="6" height="6"/>
<path class="hatch in" d="M-1 1L1 -1M0 6L6 0M5 7L7 5"/></pattern>
<pattern id="shrinks" width="6" height="6" patternUnits="userSpaceOnUse"><rect class="ground" width="6" height="6"/>
<path class="hatch out" d="M-1 5L1 7M0 0L6 6M5 -1L7 1"/></pattern>"""


def colours(of: dict[str, str]) -> str:
    """The rules that give each class its colour."""
    files = "".join(f" .of{at} {{ fill: {of[f'of{at}']}; stroke: {of[f'of{at}']} }}" for at in range(FILES))
    return f"""text {{ fill: {of["ink"]} }} .small {{ fill: {of["soft"]} }} .ground {{ fill: {of["ground"]} }} .grid {{ stroke: {of["grid"]} }}
.there, .sure {{ fill: {of["sure"]} }} .grows, .in {{ stroke: {of["sure"]} }} .shrinks, .out {{ stroke: {of["shrinks"]} }}
.moves, .day {{ stroke: {of["soft"]} }} .stays {{ fill: {of["ink"]} }} .turn {{ fill: {of["ground"]}; stroke: {of["turn"]} }}
{files[1:]}"""


STYLE = f"{colours(LIGHT)}\n@media (prefers-color-scheme: dark) {{\n{colours(DARK)} }}\n{FORMS}"


def short(text: str, most: int) -> str:
    """The text on one line, cut where it takes more places. A sign that steers a terminal is a blank."""
    text = "".join(" " if unicodedata.category(sign) == "Cc" else sign for sign in text)
    if places_of(text) <= most:
        return text
    text = text[:most]
    while places_of(text) >= most:
        text = text[:-1]
    return text + "…"


def drawable(text: str) -> str:
    """The text without the signs that XML does not have, escaped."""
    return html.escape("".join(sign if sign >= " " and sign not in "\ufffe\uffff" else "\ufffd" for sign in text))


def rect(sort: str, x: float, y: float, width: float, height: float) -> str:
    return f'<rect class="{sort}" x="{x:.1f}" y="{y:.1f}" width="{max(width, 1):.1f}" height="{height:.1f}"/>'


def words(sort: str, x: float, y: float, said: str) -> str:
    return f'<text class="{sort}" x="{x:.1f}" y="{y:.1f}">{drawable(said)}</text>'


def circle(x: float, y: float) -> str:
    return f'<circle class="turn" cx="{x:.1f}" cy="{y:.1f}" r="3"/>'


def mark(sort: str, x: float, end: float, y: float) -> str:
    """A bar for the days of a period, a dotted line for a point that moves, a diamond for one that stays."""
    if sort == "moves":
        return f'<path class="moves" d="M{x:.1f} {y:.1f}H{end:.1f}"/>'
    if sort == "stays":
        return f'<path class="stays" d="M{x:.1f} {y - 5:.1f}l4 5l-4 5l-4 -5z"/>'
    return rect(sort, x, y - 4, end - x, 8)


def draw_part(part: Part, over: Window, left: float, y: float) -> str:
    if part.high <= over.low or part.low >= over.high:
        return ""
    return mark(part.sort, left + over.place(part.low), left + over.place(part.high), y)


def draw_line(one: Line, over: Window, left: float, y: float) -> Iterator[str]:
    yield f"<g><title>{drawable(one.label)}</title>" + words("small", 12, y + 4, short(one.label, LABEL))
    yield from (draw_part(part, over, left, y) for part in one.parts)
    yield from (circle(left + over.place(day), y) for day in one.turns if over.low <= day <= over.high)
    if not one.parts:
        yield words("small", left + 4, y + 4, "empty on every day")
    yield "</g>"


def height_of(lane: Lane) -> int:
    return HEIGHT + LINE * len(lane.lines)


def draw_lane(lane: Lane, over: Window, left: float, y: float) -> Iterator[str]:
    height = height_of(lane)
    for low, high in lane.days:
        if low < over.high and high > over.low:
            x = left + over.place(low)
            shape = rect("there", x, y + 2, left + over.place(high) - x, height - 4)
            yield f"<g><title>there: {drawable(str(lane.days))}</title>{shape}</g>"
    yield f"<g><title>{drawable(lane.label)}</title>" + words("name", 6, y + 14, short(lane.label, NAME)) + "</g>"
    for at, one in enumerate(lane.lines):
        yield from draw_line(one, over, left, y + HEIGHT + LINE * at + LINE / 2 - 2)


LEGEND = (("there", "the row is there on these days"), ("sure", "days of the period, whenever asked"), ("grows", "grows into these days"),
          ("shrinks", "shrinks out of these days"), ("moves", "the date moves along"), ("stays", "a date that stays"),
          ("turn", "ends or moves here"))


def sorts_of(all_lanes: list[Lane]) -> set[str]:
    lines = [one for lane in all_lanes for one in lane.lines]
    return {"there"} | {part.sort for one in lines for part in one.parts} | {"turn" for one in lines if one.turns}


def draw_legend(marks: list[tuple[str, str]], width: float, y: float) -> tuple[list[str], float]:
    """What each mark means, on as many lines as the width asks for, and where the last of these is."""
    drawn, x = [], 6.0
    for sort, said in marks:
        room = 40 + 6 * places_of(said)
        if x > 6 and x + room > width:
            x, y = 6.0, y + LINE
        drawn.append((circle(x + 8, y - 4) if sort == "turn" else mark(sort, x + 4 * (sort == "stays"), x + 16, y - 4)))
        drawn.append(words("small", x + 22, y, said))
        x += room
    return drawn, y


def document(title: str, width: float, height: float, body: list[str]) -> str:
    """The SVG of what is drawn, which is shown smaller where there is less room."""
    size = f'width="{width:.0f}" height="{height:.0f}" viewBox="0 0 {width:.0f} {height:.0f}"'
    said = drawable(title)
    head = f'<svg xmlns="http://www.w3.org/2000/svg" {size} role="img" aria-label="{said}">\n<title>{said}</title>'
    ground = f'<style>{STYLE}</style>\n<defs>{PATTERNS}</defs>\n<rect class="ground" width="100%" height="100%"/>'
    return "\n".join([head, ground, words("title", 6, 18, title), *body, "</svg>\n"])


def svg(title: str, said: str, all_lanes: list[Lane], over: Window) -> str:
    """The drawing of the lanes over an axis, with light lines at months or years."""
    lines = ["  " + one.label for lane in all_lanes for one in lane.lines]
    left = 20 + SIGN * max(widest([said, *(lane.label for lane in all_lanes)], NAME), widest(lines, LABEL))
    y, bottom = 48.0, 48.0 + sum(map(height_of, all_lanes))
    body = [words("small", 6, 38, short(said, NAME))]
    for day, label in ticks(over, int(over.width / 60)):
        x = left + over.place(day)
        body.append(f'<path class="grid" d="M{x:.1f} 42V{bottom:.1f}"/>' + words("small tick", x, 38, label))
    for lane in all_lanes:
        body.extend(draw_lane(lane, over, left, y))
        y += height_of(lane)
    width, sorts = max(left + over.width + 30, 760), sorts_of(all_lanes)
    legend, y = draw_legend([pair for pair in LEGEND if pair[0] in sorts], width, bottom + 22)
    return document(title, width, y + 12, body + legend)


# The drawing of what is asked.

TOP, SIDE, UP, ACROSS, MOST = 46, 60, 400, 560, 100


class Row(NamedTuple):
    """A row of the file with the number `of`: the days on which it is there, and one of its periods, or none."""

    of: int
    label: str
    days: Days
    period: Optional[Period]


Corners = list[tuple[Day, Day]]


def days_said(days: Days) -> str:
    """The days on which a row is there, in words where they are few."""
    if days == ALL_DAYS:
        return "on all days"
    low, high = days[0]
    if len(days) == 1 and high == INFINITY:
        return f"from {low} on"
    return f"before {high}" if len(days) == 1 and low == FIRST else str(days)


def rows_of(number: int, saved: Saved) -> Iterator[Row]:
    """Each row of a file once for each of its periods, or once where it has none."""
    many = sum(column.kind == "PERIOD" for column in saved.columns) > 1
    for row, days in sorted(saved.entries, key=lambda entry: (entry[0], entry[1])):
        cells = list(zip(saved.columns, row))
        said = short(", ".join(str(value) for column, value in cells if column.kind != "PERIOD"), 20)
        periods = [(column.name, value) for column, value in cells if column.kind == "PERIOD"]
        for name, value in periods:
            yield Row(number, f"{said} {name} {value}" if many else f"{said} {value}", days, value)
        if not periods:
            yield Row(number, f"{said} {days_said(days)}", days, None)


def corners(period: Period, low: Day, high: Day) -> list[Corners]:
    """The shapes of a period over the days asked from low to high: its corners (day asked, day of the period), first those of
    its start. Between two of the days at which an end begins to move or stops, start and end do not pass each other."""
    cuts = sorted({low, high, *(day for point in period for day in point if low < day < high)})
    pieces = [(first, last) for first, last in zip(cuts, cuts[1:])
              if any(period.start.at(day) < period.end.at(day) for day in (first, last))]
    runs: list[list[Day]] = []
    for first, last in pieces:
        if runs and runs[-1][-1] == first:
            runs[-1].append(last)
        else:
            runs.append([first, last])
    return [[(day, point.at(day)) for point, days in ((period.start, run), (period.end, run[::-1])) for day in days] for run in runs]


def shapes(period: Period, days: Days, over: Window) -> list[Corners]:
    """The shapes of a row's period on the days on which it is there, in the window."""
    spans = [(max(low, over.low), min(high, over.high)) for low, high in days]
    found = [shape for low, high in spans if low < high for shape in corners(period, low, high)]
    return [shape for shape in found if any(day > over.low for _, day in shape) and any(day < over.high for _, day in shape)]


class Plane(NamedTuple):
    """Where a day asked is across, and a day of a period up."""

    over: Window
    top: float

    def x(self, day: Day) -> float:
        return SIDE + self.over.place(day)

    def y(self, day: Day) -> float:
        return self.top + UP - self.over.place(day) * UP / ACROSS


def draw_shape(row: Row, shape: Corners, plane: Plane) -> str:
    points = " ".join(f"{plane.x(asked):.1f},{plane.y(day):.1f}" for asked, day in shape)
    return f'<g><title>{drawable(row.label)}</title><polygon class="shape of{row.of % FILES}" points="{points}"/></g>'


def draw_column(row: Row, plane: Plane, y: float) -> Iterator[str]:
    """A bar above the plane on the days on which the row is there, a column below it, and lines where these begin and end."""
    bottom, over, sort = plane.top + UP, plane.over, f"of{row.of % FILES}"
    yield f"<g><title>{drawable(row.label)}</title>"
    for low, high in row.days:
        if low < over.high and high > over.low:
            x, end = plane.x(low), plane.x(high)
            yield rect(sort, x, y - 4, end - x, 8)
            yield rect(f"{sort} column", x, y + 4, end - x, bottom - y - 4)
            yield from (f'<path class="edge {sort}" d="M{plane.x(day):.1f} {y + 4:.1f}V{bottom:.1f}"/>'
                        for day in (low, high) if over.low < day < over.high)
    yield words("small", SIDE + ACROSS + 24, y + 4, short(row.label, MOST)) + "</g>"


def spread(wanted: list[float], low: float, high: float) -> list[float]:
    """Places near those that are wanted, in rising order, a line apart, from low to high."""
    found: list[float] = []
    for place in wanted:
        found.append(max(place, found[-1] + LINE if found else low))
    for at in range(len(found) - 1, -1, -1):
        found[at] = min(found[at], high - LINE * (len(found) - 1 - at))
    return found


def right_side(shape: Corners, plane: Plane) -> tuple[float, float]:
    """The days of the period as of the last day that is asked, as places."""
    last = max(asked for asked, _ in shape)
    places = [plane.y(day) for asked, day in shape if asked == last]
    return min(places), max(places)


def place_of(side: tuple[float, float], sides: list[tuple[float, float]]) -> float:
    """The place on a side that fewest other sides have, so that one sees of which shape a label is."""
    ends = sorted({end for other in sides for end in other if side[0] <= end <= side[1]})
    parts = [(low, high) for low, high in zip(ends, ends[1:])] or [side]
    low, high = min(parts, key=lambda part: (sum(one[0] <= part[0] and part[1] <= one[1] for one in sides), part[0] - part[1]))
    return (low + high) / 2


def draw_labels(drawn: list[tuple[Row, Corners]], plane: Plane) -> Iterator[str]:
    """The label of each row beside the plane, with a line to the right side of its shape; where there are too many, of the first."""
    most, label = UP // LINE, SIDE + ACROSS + 24
    sides = [right_side(shape, plane) for _, shape in drawn[:most]]
    shown = sorted((place_of(side, sides), at) for at, side in enumerate(sides))
    for (y, at), place in zip(shown, spread([y for y, _ in shown], plane.top + 6, plane.top + UP - 6)):
        row, shape = drawn[at]
        x = plane.x(max(asked for asked, _ in shape))
        yield f'<path class="of{row.of % FILES}" d="M{x:.1f} {y:.1f}L{label - 4} {place:.1f}"/>'
        yield words("small", label, place + 4, short(row.label, MOST))
    if len(drawn) > most:
        yield words("small", label, plane.top + UP + 16, f"and {len(drawn) - most} more")


def draw_plane(plane: Plane) -> Iterator[str]:
    """Light lines at months or years both ways, and the line on which a day is the one that is asked."""
    right, bottom = SIDE + ACROSS, plane.top + UP
    for day, label in ticks(plane.over, 9):
        x, y = plane.x(day), plane.y(day)
        yield f'<path class="grid" d="M{x:.1f} {plane.top:.1f}V{bottom + 4:.1f}M{SIDE - 4} {y:.1f}H{right}"/>'
        yield words("small tick", x, bottom + 16, label) + words("small end", SIDE - 8, y + 4, label)
    yield f'<path class="day" d="M{SIDE} {bottom:.1f}L{right} {plane.top:.1f}"/>' + words("small", SIDE + 26, bottom - 8, "now")


COLUMN = "; a column: the days on which a row is there"


def asked_svg(title: str, names: list[str], rows: list[Row], over: Window) -> str:
    """The drawing of the rows over the days that are asked: shapes of periods, and columns of rows that have none."""
    columns = [row for row in rows if not row.period]
    plane = Plane(over, TOP + LINE * len(columns))
    drawn = [(row, shape) for row in rows if row.period for shape in shapes(row.period, row.days, over)]
    body = [words("small", 6, 36, "across: the day that is asked; up: the days of a period as of it" + COLUMN * bool(columns))]
    body.extend(draw_plane(plane))
    for at, row in enumerate(columns):
        body.extend(draw_column(row, plane, TOP + 6 + LINE * at))
    body.extend(draw_shape(row, shape, plane) for row, shape in drawn)
    body.extend(draw_labels(list({row: shape for row, shape in drawn}.items()), plane))
    width = SIDE + ACROSS + 40 + 6 * widest([row.label for row in rows], MOST)
    marks = [(f"shape of{at % FILES}", name) for at, name in enumerate(names)]
    legend, y = draw_legend(marks, width, plane.top + UP + 42)
    return document(title, width, y + 12, body + legend)


# The drawing for a terminal.

SIGNS = {"there": "-", "sure": "=", "grows": ">", "shrinks": "<", "moves": "~", "stays": "|"}


def text_legend(sorts: set[str], most: int) -> list[str]:
    """What each sign means, on as many lines as there have to be."""
    lines = [""]
    for said in (f"{SIGNS[sort]} {said}" for sort, said in LEGEND if sort in sorts and sort in SIGNS):
        if lines[-1] and len(lines[-1]) + 3 + len(said) > most:
            lines.append("")
        lines[-1] += ("   " if lines[-1] else "") + said
    return lines


def columns_of(part: Part, over: Window) -> range:
    """The columns of the terminal that have one of the days."""
    if part.high <= over.low or part.low >= over.high:
        return range(0)
    first, last = max(part.low, over.low), min(part.high, over.high) - 1
    return range(int(over.place(first)), int(over.place(last)) + 1)


def text_line(label: str, parts: list[Part], over: Window, room: int) -> str:
    """A label and what is drawn beside it; below it, where there is no room for the label, as no date or period is cut."""
    signs = [" "] * int(over.width)
    for part in sorted(parts, key=lambda one: one.sort == "sure"):
        for column in columns_of(part, over):
            signs[column] = SIGNS[part.sort]
    between = " " * (room + 1 - places_of(label)) if places_of(label) <= room else "\n" + " " * (room + 1)
    return f"{label}{between}{''.join(signs)}".rstrip()


def text_axis(said: str, over: Window, room: int) -> list[str]:
    """The days above the drawing, beside what the names of the lanes are made of."""
    names, marks = [" "] * (int(over.width) + 12), [" "] * int(over.width)
    free = 0
    for day, label in ticks(over, int(over.width / 10)):
        column = int(over.place(day))
        marks[column] = "|"
        if column >= free:
            names[column:column + len(label)] = label
            free = column + len(label) + 1
    said = short(said, room)
    return [said + " " * (room + 1 - places_of(said)) + "".join(names).rstrip(), " " * (room + 1) + "".join(marks).rstrip()]


def text(title: str, said: str, all_lanes: list[Lane], over: Window, room: int) -> str:
    """The lanes for a terminal: a line for the days on which a row is there, and one for each of its values."""
    columns = room + 2 + int(over.width)
    drawn = [short(title, columns), *text_axis(said, over, room)]
    for lane in all_lanes:
        there = [Part("there", low, high) for low, high in lane.days]
        drawn.append(text_line(short(lane.label, room), there, over, room))
        drawn.extend(text_line("  " + one.label, one.parts, over, room) for one in lane.lines)
    return "\n".join([*drawn, "", *text_legend(sorts_of(all_lanes), columns), ""])


# The page.

def page(title: str, saved: Saved, over: Window) -> str:
    """The page: page.html with the rows. A number or a text stands by its place among all of its column, in rising order."""
    lists = [sorted({row[at] for row, _ in saved.entries if not isinstance(row[at], tuple)}) for at in range(len(saved.columns))]
    places = [{value: place for place, value in enumerate(values)} for values in lists]

    def cell(value: Any, at: int) -> Any:
        if isinstance(value, Period):
            return [*value.start, *value.end]
        return list(value) if isinstance(value, Point) else places[at][value]

    rows = [[[cell(value, at) for at, value in enumerate(row)], [day for ends in days for day in ends]] for row, days in saved.entries]
    columns = [[column.name, column.kind, [str(value) for value in values]] for column, values in zip(saved.columns, lists)]
    data = {"title": title, "from": over.low, "to": over.high, "ticks": ticks(over, 12), "columns": columns, "rows": rows}
    written = json.dumps(data, separators=(",", ":")).replace("<", "\\u003c")
    empty = (pathlib.Path(__file__).parent / "page.html").read_text(encoding="utf-8")
    return empty.replace("<title></title>", f"<title>{html.escape(title)}</title>").replace("/* the data */ null", written)


def name_of(path: str) -> str:
    """The name of a file without its folder, and without the ending that all of them have."""
    name = os.path.basename(path)
    return name[:-4] if name.endswith(".csv") and name != ".csv" else name


def read_named(path: str) -> Saved:
    """What the file holds; ValueError with its name where it is none or cannot be read."""
    try:
        return read(path)
    except (OSError, ValueError) as why:
        raise ValueError(f"{path}: {why}") from None


def asked_drawing(asked: argparse.Namespace) -> str:
    names, files = [name_of(path) for path in asked.file], [read_named(path) for path in asked.file]
    over = window([entry for saved in files for entry in saved.entries], asked.low, asked.high, ACROSS)
    rows = [row for number, saved in enumerate(files) for row in rows_of(number, saved)]
    return asked_svg(asked.title or ", ".join(names), names, rows, over)


def drawing(asked: argparse.Namespace) -> str:
    """What is drawn by the words of the command."""
    if asked.asked:
        return asked_drawing(asked)
    saved, title = read_named(asked.file[0]), asked.title or name_of(asked.file[0])
    all_lanes, said = lanes(saved), names_said(saved)
    if asked.html:
        return page(title, saved, window(saved.entries, asked.low, asked.high, 1))
    if asked.text:
        columns = shutil.get_terminal_size((100, 24)).columns
        room = widest([said, *labels_of(all_lanes)], max(34, columns // 2))
        return text(title, said, all_lanes, window(saved.entries, asked.low, asked.high, max(20, columns - room - 2)), room)
    return svg(title, said, all_lanes, window(saved.entries, asked.low, asked.high, 720))


def words_asked() -> argparse.Namespace:
    parser = argparse.ArgumentParser(usage=(__doc__ or "").splitlines()[0][7:])
    parser.add_argument("file", nargs="+")
    parser.add_argument("--title")
    parser.add_argument("--from", dest="low")
    parser.add_argument("--to", dest="high")
    ways = parser.add_mutually_exclusive_group()
    for way in ("--text", "--html", "--asked"):
        ways.add_argument(way, action="store_true")
    asked = parser.parse_intermixed_args()
    if len(asked.file) > 1 and not asked.asked:
        parser.error("several files are drawn with --asked alone")
    return asked


def main() -> int:
    asked = words_asked()
    try:
        drawn = drawing(asked)
    except ValueError as why:
        print(f"draw: {why}", file=sys.stderr)
        return 5
    sys.stdout.buffer.write(drawn.encode("utf-8", "replace"))
    return 0


if __name__ == "__main__":
    sys.exit(main())
