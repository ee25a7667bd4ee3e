"""The tables that bench/beside asks, by a seed. Each is written twice: NAME.csv for ongq, with a period in each row, and
NAME.dates.csv for the others, with two dates, of which the second is empty where the period ends with now."""
from __future__ import annotations

import pathlib
import random
from collections.abc import Callable, Iterable, Iterator
from datetime import date
from typing import NamedTuple, Optional

DAY = date(2025, 1, 15).toordinal()  # the last day that is asked; all periods begin before it
YEARS = 25 * 365  # in which they begin
OPEN_YEARS = 5 * 365  # in which those that are not over begin


class Row(NamedTuple):
    values: tuple[object, ...]
    since: int
    until: Optional[int]


class Table(NamedTuple):
    name: str
    columns: tuple[str, ...]
    rows: list[Row]


def iso(day: int) -> str:
    return date.fromordinal(day).isoformat()


def period(chance: random.Random) -> tuple[int, Optional[int]]:
    """Two months long as a mean; one in six is not over."""
    if chance.randrange(6) == 0:
        return DAY - 1 - chance.randrange(OPEN_YEARS), None
    since = DAY - 1 - chance.randrange(YEARS)
    return since, since + 1 + int(chance.expovariate(1 / 60))


def parts(chance: random.Random, rows: int, share: int) -> Iterator[str]:
    """So many texts, of which as many are alike as share says, as a mean."""
    return (f"part-{chance.randrange(max(1, rows // share))}" for _ in range(rows))


def pairs(chance: random.Random, rows: int) -> Iterator[Table]:
    """Bugs and patches, 40 of each with one text."""
    for name, number in (("bugs", "id"), ("patch", "pid")):
        texts = enumerate(parts(chance, rows, 40))
        yield Table(name, (number, "comp"), [Row((place, part), *period(chance)) for place, part in texts])


def single(chance: random.Random, rows: int) -> Iterator[Table]:
    yield next(pairs(chance, rows))


def spans(chance: random.Random, rows: int) -> Iterator[Table]:
    """Periods of one to ten days, each of which overlaps some five of the other table; one in a thousand is not over."""
    for name, number in (("lefts", "lid"), ("rights", "rid")):
        begun = (DAY - 1 - chance.randrange(2 * rows) for _ in range(rows))
        yield Table(name, (number,), [Row((place,), since, None if place % 1000 == 500 else since + chance.randint(1, 10))
                                      for place, since in enumerate(begun)])


def lists(chance: random.Random, rows: int) -> Iterator[Table]:
    """Jobs, and those that are known: half of these are jobs on all days, and a tenth the open ones of them on the asked day."""
    jobs = [Row((part,), *period(chance)) for part in parts(chance, rows, 20)]
    known = []
    for part in parts(chance, rows, 20):
        job, kind = chance.choice(jobs), chance.randrange(10)
        other = Row((part,), *period(chance))
        known.append(job if kind < 5 else job._replace(until=job.until or DAY) if kind == 5 else other)
    yield Table("jobs", ("comp",), jobs)
    yield Table("known", ("comp",), known)


Maker = Callable[[random.Random, int], Iterable[Table]]
MAKERS: dict[str, Maker] = {"pairs": pairs, "single": single, "spans": spans, "lists": lists}


def write(folder: pathlib.Path, tables: str, rows: int, seed: int) -> None:
    """Writes the files of these tables, with so many rows each."""
    for table in MAKERS[tables](random.Random(f"{seed} {tables} {rows}"), rows):
        head = ",".join(table.columns)
        with open(folder / f"{table.name}.csv", "w") as file, open(folder / f"{table.name}.dates.csv", "w") as others:
            file.write(f"{head},vt\n")
            others.write(f"{head},since,until\n")
            for row in table.rows:
                values, since = ",".join(map(str, row.values)), iso(row.since)
                file.write(f'{values},"[{since},{iso(row.until) if row.until else "now"})"\n')
                others.write(f'{values},{since},{iso(row.until) if row.until else ""}\n')
