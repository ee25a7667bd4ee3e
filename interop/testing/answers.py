"""What ongq, Python and PostgreSQL answer on the same days: for each day the list of the rows, as lists of texts."""
from __future__ import annotations

import csv
import importlib.machinery
import importlib.util
import io
import os
import random
import re
import subprocess
import sys

HERE = os.path.dirname(os.path.realpath(__file__))
INTEROP = os.path.dirname(HERE)
TOP = os.path.dirname(INTEROP)
sys.path.insert(0, f"{INTEROP}/python")
import ongq  # noqa: E402
from ongq import saved  # noqa: E402

Rows = list[list[str]]
Answers = dict[str, Rows]
LAST_OF_POSTGRES = "5874897-12-31"
FIRST_OF_POSTGRES = "-004713-11-24"


def command(path: str):  # noqa: ANN201
    """A command of this folder, which is a Python file without an ending, as a module."""
    loader = importlib.machinery.SourceFileLoader(os.path.basename(path), os.path.join(INTEROP, path))
    module = importlib.util.module_from_spec(importlib.util.spec_from_loader(loader.name, loader))
    sys.dont_write_bytecode = True
    loader.exec_module(module)
    return module


load = command("postgres/load")


def records(text: str) -> Rows:
    return [fields for fields in csv.reader(io.StringIO(text, newline="")) if fields]


def run(program: str, folder: str, script: str) -> str:
    """What the program writes for a script in the folder."""
    done = subprocess.run([program, "run"], cwd=folder, input=script.encode(), capture_output=True)
    if done.returncode:
        raise AssertionError(f"ongq: status {done.returncode}: {done.stdout.decode()[-300:]}\n{script}")
    return done.stdout.decode()


MARK = "CREATE TABLE mark_between (mark_between INT);\n"


def prints(name: str, days: list[str]) -> str:
    """The statements that print a name as of each day, with a mark behind each."""
    return "".join(f"PRINT {name} AS OF DATE '{day}';\nPRINT mark_between AS OF DATE '{day}';\n" for day in days)


def pieces(output: str, count: int) -> list[Rows]:
    """The rows of each table that `prints` wrote."""
    found: list[Rows] = [[]]
    for fields in records(output):
        if fields == ["mark_between"]:
            found.append([])
        else:
            found[-1].append(fields)
    assert len(found) == count + 1, "another number of tables than days"
    return [piece[1:] for piece in found[:-1]]


def printed(output: str, days: list[str]) -> Answers:
    """The rows on each day of what `prints` wrote."""
    return dict(zip(days, pieces(output, len(days))))


def of_python(path: str, days: list[str]) -> Answers:
    found = ongq.read(path)
    return {day: [[str(value) for value in row] for row in found.rows(day)] for day in days}


def version_1(text: str) -> str:
    """A saved file of version 2 as one of version 1 with the same rows."""
    _, columns, *rows, count = records(text)
    rows = [row[:-1] + ["{[-infinity,infinity)}" if row[-1] == "*" else row[-1]] for row in rows]
    return "".join(map(saved.record_text, [columns + count, *rows]))


def table(path: str, name: str) -> str:
    """The script of psql that makes the table of a saved file."""
    with ongq.open_saved(path) as lines:
        return "".join(load.statements(lines, name))


def query_table(name: str, query: str, as_view: bool) -> str:
    """The script of psql that keeps the answer of a query, or makes a view of it."""
    made = f"CREATE {'VIEW' if as_view else 'TABLE'} {name} AS {query.strip().rstrip(';')};\n"
    gone = "" if as_view else f"DELETE FROM {name} WHERE isempty(days);\n"
    return f"{made}{gone}DO $$ BEGIN PERFORM make_as_of('{name}'); END $$;\n"


def copied(mark: str, query: str) -> str:
    """The script of psql that writes the rows of a query behind a mark."""
    return f"\\echo mark {mark}\nCOPY ({query}) TO STDOUT (FORMAT csv);\n"


def asked(name: str, columns: list[str], kinds: list[str], days: list[str]) -> str:
    """The script of psql that writes the rows of a table on each day, in rising order, behind the number of the day."""
    shown = ", ".join(f'show("{column}")' for column in columns)
    order = ", ".join(f'"{column}"' + ' COLLATE "C"' * (kind == "TEXT") for column, kind in zip(columns, kinds))
    listed = ", ".join(f"read_day('{day}')" for day in days)
    rows = f"{name}_as_of(day_asked)"
    if len(columns) == 1:  # of one column that is a period PostgreSQL gives the parts
        rows = f'LATERAL (SELECT o AS "{columns[0]}" FROM {rows} o) one'
    all_days = f"unnest(ARRAY[{listed}]) WITH ORDINALITY AS days_asked(day_asked, number)"
    return copied(name, f"SELECT number, {shown} FROM {all_days}, {rows} ORDER BY number, {order}")


def last_asked(name: str) -> str:
    """The script that writes the rows on PostgreSQL's last day, which no text of ongq has."""
    return copied(f"{name} last", f"SELECT DISTINCT to_json(o)::text COLLATE \"C\" FROM {name}_as_of('{LAST_OF_POSTGRES}') o ORDER BY 1")


def kept_asked(name: str, columns: list[str]) -> str:
    """The script that writes the rows as they are kept, as the texts of a saved file."""
    shown = ", ".join(f'show("{column}")' for column in [*columns, "days"])
    return copied(f"{name} kept", f"SELECT {shown} FROM {name}")


def of_postgres(output: str) -> dict[str, Rows]:
    """The records behind each mark."""
    _, *found = re.split("^mark (.*)\n", output, flags=re.MULTILINE)
    return {name: records(text) for name, text in zip(found[::2], found[1::2])}


def by_day(rows: Rows, days: list[str]) -> Answers:
    answers: Answers = {day: [] for day in days}
    for number, *row in rows:
        answers[days[int(number) - 1]].append(row)
    return answers


def days_around(texts: str, seed: str, postgres: bool) -> list[str]:
    """40 days: those round the days that stand in the texts, as many as there is room for, and those at both ends."""
    found = {ongq.read_day(text) for text in re.findall("(?:-00[0-9]{4}|(?<![-0-9])[0-9]{4})-[0-9]{2}-[0-9]{2}", texts)}
    first = ongq.read_day(FIRST_OF_POSTGRES) if postgres else ongq.FIRST
    ends = [first, ongq.Day(first + 1), ongq.LAST]
    near = sorted({ongq.Day(day + step) for day in found for step in (-1, 0, 1)} - set(ends))
    near = [day for day in near if first <= day <= ongq.LAST]
    chance = random.Random(seed)
    chosen = chance.sample(near, min(len(near), 40 - len(ends)))
    while len(chosen) < 40 - len(ends):
        chosen.append(ongq.Day(chance.randint(first, ongq.LAST)))
    return [str(day) for day in sorted([*chosen, *ends])]
