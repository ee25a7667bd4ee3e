"""Random scripts by a seed, over all statements: random tables, changes of them, and a query that is kept, live, saved and opened."""
from __future__ import annotations

import answers
import case_files
import cases

PRINTED = 8  # the days on which answers are printed
FAULTS = ["PRINT nobody AS OF DATE '2020-01-01';", "DROP", "KEEP answer AS SELECT * FROM t;", "OPEN new FROM 'none.csv';", "IMPORT INTO v FROM 'answer.csv';",
          "DELETE FROM answer;", "INSERT INTO v VALUES (1);"]


def quoted(text: str) -> str:
    """A field of a table file."""
    return '"' + text.replace('"', '""') + '"'


def key(maker: cases.Maker, left: tuple[str, str], right: tuple[str, str], may_overlap: bool) -> tuple:
    """That two tables, each told by what stands before its columns and its name, have an equal number or text, or that they overlap."""
    tests = {"int": ("compare", "=", "INT"), "text": ("compare", "=", "TEXT"), "period": ("predicate", "OVERLAPS", "PERIOD")}
    word = maker.random.choice(["int", "int", "text", "period", "period"] if may_overlap else ["int", "text"])
    test, sign, kind = tests[word]
    sides = [("column", f"{before}{name}_{word}", kind) for before, name in (left, right)]
    return (test, sign, *sides, *([kind] if test == "compare" else []))


def keyed_core(maker: cases.Maker, core: cases.Core) -> cases.Core:
    """The core with a key or an overlap for each further table, and for its EXISTS."""
    sides = [(f"{alias}.", name) for name, alias in core.tables]
    condition = core.condition
    for left, right in zip(sides, sides[1:]):
        condition = ("AND", key(maker, left, right, True), condition)
    semi = core.semi and (*core.semi[:2], ("AND", key(maker, sides[0], ("", core.semi[1]), True), core.semi[2]))
    return core._replace(condition=condition, semi=semi)


def keyed(maker: cases.Maker, made: cases.Case) -> cases.Case:
    """The case without products: its tables are joined by keys or overlaps."""
    return made._replace(cores=[keyed_core(maker, core) for core in made.cores])


class Script:
    """A script as it is made, and the files that lie beside it."""

    def __init__(self, seed: str) -> None:
        self.maker = cases.Maker(f"sql {seed}")
        self.random = self.maker.random
        self.made = self.maker.case()
        self.case = case_files.Case(f"random {seed}", "a random script")
        self.lines: list[str] = []
        self.is_keyed = self.has_chance(0.5)
        if self.is_keyed:
            self.made = keyed(self.maker, self.made)
        self.query = cases.query_in_ongq(self.made)
        # A live result has no EXISTS and of the set operators UNION alone.
        plain = [core._replace(semi=None) for core in self.made.cores]
        self.live = cases.query_in_ongq(self.made._replace(cores=plain, operators=["UNION"] * len(self.made.operators)))

    def has_chance(self, share: float) -> bool:
        return self.random.random() < share

    def put_table(self, table: cases.Table) -> None:
        """The table with its rows, which are inserted or imported."""
        self.lines.append(f"CREATE TABLE {table.name} ({', '.join(' '.join(column) for column in table.columns)});")
        if self.has_chance(0.2):
            records = [[name for name, _ in table.columns], *([text for _, _, text in row] for row in table.rows)]
            content = "".join(",".join(map(quoted, one)) + "\n" for one in records)
            self.case.files[f"{table.name}.csv"] = bytearray(content.encode())
            self.lines.append(f"IMPORT INTO {table.name} FROM '{table.name}.csv';")
        else:
            tuples = ["(" + ", ".join(map(cases.in_ongq, row)) + ")" for row in table.rows]
            self.lines.append(f"INSERT INTO {table.name} VALUES {', '.join(tuples)};")

    def put_changes(self, table: cases.Table) -> None:
        """The DELETE and the UPDATE of a table, where it has them, and more rows."""
        changes = []
        if table.gone:
            changes.append(f"DELETE FROM {table.name} WHERE {cases.in_ongq(table.gone)};")
        if table.changed:
            given = ", ".join(f"{name} = {cases.in_ongq(expression)}" for name, expression in table.changed[0])
            changes.append(f"UPDATE {table.name} SET {given} WHERE {cases.in_ongq(table.changed[1])};")
        if self.has_chance(0.3):
            row = [self.maker.literal(kind) for _, kind in table.columns]
            changes.append(f"INSERT INTO {table.name} VALUES ({', '.join(map(cases.in_ongq, row))});")
        self.random.shuffle(changes)
        self.lines += changes

    def put_answers(self) -> None:
        """The query as a kept result, saved and opened, and a query on that."""
        self.lines += [f"KEEP answer AS {self.query};", "SAVE answer TO 'answer.csv';"]
        if self.has_chance(0.4):
            self.lines += ["OPEN again FROM 'answer.csv';", "SAVE again TO 'again.csv';"]
        if self.has_chance(0.4):
            columns = [(f"c{at}", kind) for at, kind in enumerate(self.made.kinds, 1)]
            self.lines.append(f"KEEP more AS SELECT * FROM answer WHERE {cases.in_ongq(self.maker.condition(columns))};")

    def put_prints(self) -> None:
        """What is asked on the days round those that the script names."""
        names = [line.split()[1] for line in self.lines if line.startswith(("KEEP ", "LIVE ", "OPEN "))]
        days = answers.days_around("\n".join(self.lines), self.case.place, True)
        for day in sorted(self.random.sample(days, min(PRINTED, len(days)))):
            self.lines += [f"PRINT {name} AS OF DATE '{day}'; VALID {name} AS OF DATE '{day}';" for name in names]
        self.lines += [f"PRINT {self.query} AS OF DATE '{day}';", f"EXPLAIN {self.query};"]

    def put_end(self) -> None:
        """DROP of a table, of which a live result may be made, and now and then a fault."""
        if self.has_chance(0.5):
            self.lines += [f"DROP {self.random.choice(self.made.tables).name};", "TABLES;"]
            self.lines += [f"SAVE {line.split()[1]} TO '{line.split()[1]}.csv';" for line in self.lines if line.startswith("LIVE ")]
        if self.has_chance(0.1):
            self.lines.append(self.random.choice(FAULTS))


def case(seed: str) -> case_files.Case:
    script = Script(seed)
    for table in script.made.tables:
        script.put_table(table)
    is_live, is_early = script.has_chance(0.5), script.has_chance(0.7)
    if is_live and is_early:
        script.lines.append(f"LIVE seen AS {script.live};")
    for table in script.made.tables:
        script.put_changes(table)
    if is_live and not is_early:
        script.lines.append(f"LIVE seen AS {script.live};")
    script.put_answers()
    script.put_prints()
    script.put_end()
    script.case.is_random, script.case.has_keys = True, script.is_keyed
    script.case.script += "\n".join(script.lines).encode()
    return script.case
