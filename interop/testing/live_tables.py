"""Compares live results that ongq_sql writes as tables with triggers, and as views, with ongq, byte for byte; and measures them.

    live_tables.py PROGRAM_OF_SQL random N   N random scripts that change tables under live results
    live_tables.py PROGRAM_OF_SQL pace       a round of ten rows at 100,000 rows a side, beside asking anew

The program is given no word for views, and `--live=table` for tables.
"""
from __future__ import annotations

import os
import random
import re
import subprocess
import sys
import tempfile

sys.path.insert(0, os.path.dirname(os.path.realpath(__file__)))
import cases as made  # noqa: E402
import pace  # noqa: E402
import server  # noqa: E402
from translated import ONGQ, Case, Psql, Trial, days_of  # noqa: E402

TABLES = ("lefts", "rights")
# Two rounds of a table: of whole rows, and of rows from a day on.
ROUND = """INSERT INTO {table} VALUES {rows};
DELETE FROM {table} WHERE id >= 5000 AND id < 5010;
UPDATE {table} SET k = 'k7' WHERE id >= 6000 AND id < 6010;
INSERT INTO {table} VALUES {rows};
DELETE FROM {table} WHERE id >= 7000 AND id < 7010 AND ONGOING 'now' >= DATE '2010-01-01';
UPDATE {table} SET k = 'k7' WHERE id >= 8000 AND id < 8010 AND ONGOING 'now' >= DATE '2010-01-01';
"""
PAIRS = "SELECT l.id, r.id AS other FROM lefts l JOIN rights r ON l.k = r.k WHERE l.vt OVERLAPS r.vt"


class Maker:
    """Makes the script of a number: tables, live results of them, and changes with what is printed after each."""

    def __init__(self, number: int) -> None:
        self.maker = made.Maker(f"live {number}")
        self.random = self.maker.random
        self.tables = {name: self.maker.table(name) for name in "tuv"}
        self.lives: list[str] = []
        self.count = 0

    def items(self, columns: list[tuple[str, str]], kinds: list[str]) -> str:
        """Items of these kinds, most of them columns."""
        parts = []
        for at, kind in enumerate(kinds, 1):
            fitting = [name for name, its_kind in columns if its_kind == kind]
            item = self.random.choice(fitting) if self.random.random() < 0.7 else made.in_ongq(self.maker.expression(kind, columns))
            parts.append(f"{item} AS c{at}")
        return ", ".join(parts)

    def core(self, kinds: list[str]) -> str:
        """A SELECT from one to three tables, of which some are the same one, joined by a key, by an overlap or by any condition."""
        chosen = self.random.choices(list(self.tables.values()), k=self.random.choice([1, 1, 2, 2, 2, 3]))
        aliases = [f"x{number}" for number in range(1, len(chosen) + 1)]
        columns = [(f"{alias}.{name}", kind) for alias, table in zip(aliases, chosen) for name, kind in table.columns]
        tests = []
        for before in range(len(chosen) - 1):
            form = self.random.choice(["key", "text", "overlap", "both", "none"])
            one, two = ([f"{aliases[at]}.{name}" for name, _ in chosen[at].columns] for at in (before, before + 1))
            tests += [f"{one[0]} = {two[0]}"] if form in ("key", "both") else [f"{one[1]} = {two[1]}"] if form == "text" else []
            tests += [f"{one[3]} OVERLAPS {two[3]}"] if form in ("overlap", "both") else []
        if self.random.random() < 0.5 or not tests:
            tests.append(f"({made.in_ongq(self.maker.condition(columns))})")
        tables = ", ".join(f"{table.name} {alias}" for table, alias in zip(chosen, aliases))
        return f"SELECT {self.items(columns, kinds)} FROM {tables} WHERE {' AND '.join(tests)}"

    def live(self) -> str:
        self.count += 1
        name = f"live_{self.count}" + ("_" + "long" * 14 if self.random.random() < 0.1 else "")
        self.lives.append(name)
        kinds = self.random.choices(made.KINDS, (3, 2, 2, 2), k=self.random.randint(1, 4))
        return f"LIVE {name} AS {' UNION '.join(self.core(kinds) for _ in range(self.random.choice([1, 1, 2, 3])))};"

    def condition(self, table: made.Table) -> str:
        """A condition on numbers and texts, on the days, or on both."""
        steady = self.random.choice([f"{table.name}_int = {self.random.randint(-1, 2)}", f"{table.name}_text < 'b'"])
        whole = made.in_ongq(self.maker.condition(table.columns))
        return self.random.choice([steady, f"({whole})", f"{steady} AND ({whole})", f"ONGOING 'now' >= ONGOING '{self.maker.point()}'"])

    def change(self) -> str:
        """A statement that changes a table."""
        table = self.random.choice(list(self.tables.values()))
        word = self.random.choices(["INSERT", "DELETE", "UPDATE", "LIVE", "DROP live", "DROP table"], (6, 4, 5, 1, 1, 0.7))[0]
        if word == "INSERT":
            count = 101 if self.random.random() < 0.005 else self.random.randint(1, 4)
            rows = [[self.maker.literal(kind) for kind in made.KINDS] for _ in range(count)]
            return f"INSERT INTO {table.name} VALUES " + ", ".join("(" + ", ".join(map(made.in_ongq, row)) + ")" for row in rows) + ";"
        if word == "DELETE":
            return f"DELETE FROM {table.name} WHERE {self.condition(table)};"
        if word == "UPDATE":
            given, _ = self.maker.change(table.columns)
            sets = ", ".join(f"{name} = {made.in_ongq(expression)}" for name, expression in given)
            return f"UPDATE {table.name} SET {sets} WHERE {self.condition(table)};"
        if word == "DROP live" and len(self.lives) > 1:
            return f"DROP {self.lives.pop(0)};"
        if word == "DROP table" and len(self.tables) > 1:
            del self.tables[table.name]
            return f"DROP {table.name};"
        return self.live()

    def asked(self, days: list[str]) -> str:
        """What is asked of the live results after a change."""
        lines = []
        for name in self.lives:
            chosen = self.random.sample(days, 3)
            lines += [f"PRINT {name} AS OF DATE '{day}';" for day in chosen]
            if self.random.random() < 0.2:
                lines.append(f"VALID {name} AS OF DATE '{chosen[0]}';")
        return "\n".join(lines)

    def case(self, number: int) -> Case:
        one = Case(f"live tables {number}", "random")
        lines = [f"CREATE TABLE {table.name} ({', '.join(' '.join(column) for column in table.columns)});" for table in self.tables.values()]
        for table in self.tables.values():
            rows = ["(" + ", ".join(map(made.in_ongq, row)) + ")" for row in table.rows]
            lines += [f"INSERT INTO {table.name} VALUES {', '.join(rows)};"] if self.random.random() < 0.8 else []
        lines += [self.live() for _ in range(self.random.randint(1, 3))]
        days = days_of("\n".join([*lines, *self.maker.days]).encode())
        for _ in range(self.random.randint(4, 10)):
            lines += [self.change(), self.asked(days)]
        kept = self.lives[-1]
        lines += [f"SAVE {kept} TO 'live.csv';", f"PRINT SELECT * FROM {kept} EXCEPT SELECT * FROM {self.lives[0]} WHERE 1 = 2 AS OF DATE '{days[0]}';"
                  if len(self.lives) == 1 else "", "TABLES;"]
        one.script += "\n".join(lines).encode()
        return one


class Tables(Trial):
    """Asks for live results as tables."""

    words = ["--live=table"]


def compared(here: server.Server, program: str, count: int) -> bool:
    """Whether both forms write what ongq does, for each of the scripts."""
    trials = {"views": Trial(program, False), "tables": Tables(program, False)}
    runners = {form: Psql(here, f"live_{form}") for form in trials}
    for number in range(count):
        case = Maker(number).case(number)
        for form, trial in trials.items():
            trial.one(case, runners[form])
        if number % 50 == 49:
            print(f"{number + 1} of {count}", flush=True)
    for form, trial in trials.items():
        print(f"{form}: " + ", ".join(f"{count} {what}" for what, count in sorted(trial.counts.items())))
    return not any(not what.startswith(("same", "refused as outside")) for trial in trials.values() for what in trial.counts)


def timed(sql: str) -> str:
    """The SQL with the time of each statement, under the words of ongq that it stands for."""
    def told(found: re.Match) -> str:
        words = re.sub("[^A-Za-z0-9 =<>_]", "", found[1])
        return f"\\echo Time: of {words}\n{found[0]}"

    return re.sub("(?m)^-- ((?:LIVE|KEEP|INSERT|DELETE|UPDATE|PRINT) .{,90})", told, sql).replace("\\set QUIET on\n", "\\set QUIET on\n\\timing on\n")


def spent(lines: list[str]) -> dict[str, float]:
    """The milliseconds of each statement of ongq."""
    times: dict[str, float] = {}
    name = ""
    for line in lines:
        if line.startswith("Time: of "):
            name = line[9:] + (" again" if line[9:] in times else "")
        elif line.startswith("Time: "):
            times[name] = times.get(name, 0) + float(line.split(" ")[1])
    return times


def measured(here: server.Server, program: str, most: float) -> bool:
    """Whether each round of ten rows takes at most that part of asking anew, and the rows are those of ongq."""
    random.seed(5)
    rows = ", ".join(f"({200_000 + at}, 'k{at * 7000}', PERIOD '[{pace.day(at * 700)},{pace.day(at * 700 + 900)})')" for at in range(10))
    script = "".join(f"CREATE TABLE {name} (id INT, k TEXT, vt PERIOD);\nIMPORT INTO {name} FROM '{name}.csv';\n" for name in TABLES)
    script += f"LIVE pairs AS {PAIRS};\nKEEP anew AS {PAIRS};\n" + "".join(ROUND.format(table=name, rows=rows) for name in TABLES)
    script += "".join(f"PRINT pairs AS OF DATE '{day}';\n" for day in ("2010-01-01", "2024-01-01"))
    with tempfile.TemporaryDirectory() as folder:
        for name in TABLES:
            pace.write_keyed(f"{folder}/{name}.csv")
        wanted = subprocess.run([ONGQ, "run"], input=script.encode(), capture_output=True, cwd=folder).stdout
        sql = subprocess.run([program, *Tables.words], input=script.encode(), capture_output=True, cwd=folder).stdout.decode()
        done = subprocess.run(["psql", "-X", "-q"], input=timed(sql).encode(), stdout=subprocess.PIPE, stderr=subprocess.STDOUT,
                              env=here.environment(), cwd=folder)
    lines = done.stdout.decode().split("\n")
    times = spent(lines)
    anew = sum(time for name, time in times.items() if name.startswith("KEEP"))
    print("\n".join(f"{time:9.1f} ms, {time / anew:.3f} of asking anew: {name}" for name, time in times.items() if name))
    changes = [time for name, time in times.items() if name.startswith(("INSERT", "DELETE", "UPDATE"))]
    rounds = [sum(changes[at:at + 3]) / anew for at in range(0, len(changes), 3)]
    print("rounds of ten rows, each as a part of asking anew:", ", ".join(f"{part:.3f}" for part in rounds))
    found = "\n".join(line for line in lines if not line.startswith("Time: "))
    same = found.encode() == wanted
    print("the same output" if same else f"OTHER OUTPUT: {found[:400]}")
    return same and len(rounds) == 2 * len(TABLES) and max(rounds) <= most


def main() -> int:
    program = os.path.realpath(sys.argv[1])
    with server.started() as here:
        if here is None:
            print("interop/sql: left out, as it is not here: PostgreSQL 15")
            return 0
        here.ask("CREATE EXTENSION ongoing")
        if sys.argv[2] == "pace":
            return 0 if measured(here, program, 0.1) else 1
        return 0 if compared(here, program, int(sys.argv[3])) else 1


if __name__ == "__main__":
    sys.exit(main())
