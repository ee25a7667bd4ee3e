"""Random tables and queries, by a seed: each of them as a script of ongq and as a query of PostgreSQL by the extension.

An expression or condition is a tuple of a word and its parts: ("column", name, kind), ("literal", kind, text) or ("START", e)
and the like; ("compare", sign, e, f), ("predicate", name, e, f), ("EMPTY", e), ("CONTAINS", e, f), ("NOT", c), ("AND", c, d),
("OR", c, d).
"""
from __future__ import annotations

import random
import re
from typing import Any, NamedTuple

KINDS = ("INT", "TEXT", "DATE", "PERIOD")
SIGNS = ("=", "<>", "<", "<=", ">", ">=")
PREDICATES = ("BEFORE", "MEETS", "OVERLAPS", "STARTS", "FINISHES", "DURING", "EQUALS")
FORMS = ("X", "now", "P+", "+Q", "P+Q", "infinity", "-infinity")
FUNCTIONS = {"START": "start_of", "END": "end_of", "LEAST": "ongoing.least", "GREATEST": "ongoing.greatest", "COMMON": "common",
             "PERIOD": "ongoing.period", "EMPTY": "empty", "CONTAINS": "contains"}
# The days of a case, rising; they are few, so that their ends often meet.
PLACES = (("2020-02-27", "2020-02-28", "2020-02-29", "2020-03-01", "2020-03-02", "2020-03-31"),
          ("2026-01-01", "2026-01-02", "2026-06-30", "2026-07-01", "2027-01-01"),
          ("-004713-11-25", "-000044-03-15", "0000-02-29", "0000-03-01", "0001-01-01"),
          ("1969-12-31", "1970-01-01", "9999-12-29", "9999-12-30", "9999-12-31"))
# Days that PostgreSQL has not, or that are its first.
FAR = ("-009999-01-01", "-009999-01-02", "-005000-06-01", "-004713-11-23", "-004713-11-24")


class Table(NamedTuple):
    name: str
    columns: list[tuple[str, str]]
    rows: list[list[tuple]]
    gone: Any  # a condition of the rows that are deleted, or None
    changed: Any = None  # the assignments of an UPDATE, as columns and expressions, and its condition, or None


class Core(NamedTuple):
    """A SELECT of items from tables with their aliases, of which each row fits, with an EXISTS or a NOT EXISTS or none."""

    items: list[tuple]
    tables: list[tuple[str, str]]
    condition: Any
    semi: Any


class Case(NamedTuple):
    tables: list[Table]
    cores: list[Core]
    operators: list[str]
    kinds: list[str]
    forms: list[str]


class Maker:
    """Makes the case of a name; the same case each time."""

    def __init__(self, name: str, days: tuple[str, ...] = ()) -> None:
        self.random = random.Random(f"ongq {name}")
        self.days = days or self.random.choice(PLACES)
        self.forms: list[str] = []

    def point(self) -> str:
        form = self.random.choices(FORMS, (8, 3, 3, 3, 3, 1, 1))[0]
        self.forms.append(form)
        low, high = sorted(self.random.sample(range(len(self.days)), 2))
        low_day, high_day = self.days[low], self.days[high]
        return {"X": low_day, "P+": low_day + "+", "+Q": "+" + high_day, "P+Q": f"{low_day}+{high_day}"}.get(form, form)

    def literal(self, kind: str) -> tuple:
        if kind == "INT":
            return ("literal", kind, str(self.random.randint(-1, 2)))
        if kind == "TEXT":
            return ("literal", kind, self.random.choice(["a", "B", "", "it's, \"so\"", "é\nß", "\\N", "a\rb"]))
        if kind == "DATE":
            return ("literal", kind, self.point())
        return ("literal", kind, f"[{self.point()},{self.point()})")

    def expression(self, kind: str, columns: list[tuple[str, str]], depth: int = 0) -> tuple:
        fitting = [("column", name, kind) for name, its_kind in columns if its_kind == kind]
        if depth > 1 or kind in ("INT", "TEXT") or self.random.random() < 0.5:
            return self.random.choice(fitting) if fitting and self.random.random() < 0.75 else self.literal(kind)
        names = {"DATE": ["START", "END", "LEAST", "GREATEST"], "PERIOD": ["COMMON", "PERIOD"]}[kind]
        name = self.random.choice(names)
        parts = {"START": ["PERIOD"], "END": ["PERIOD"], "COMMON": ["PERIOD", "PERIOD"]}.get(name, ["DATE", "DATE"])
        return (name, *[self.expression(part, columns, depth + 1) for part in parts])

    def condition(self, columns: list[tuple[str, str]], depth: int = 0) -> tuple:
        words = ["NOT", "AND", "OR"] if depth == 0 else ["NOT", "AND", "OR", "test", "test", "test"]
        word = self.random.choice(words) if depth < 2 else "test"
        if word == "NOT":
            return (word, self.condition(columns, depth + 1))
        if word != "test":
            return (word, self.condition(columns, depth + 1), self.condition(columns, depth + 1))
        test = self.random.choices(["predicate", "compare", "EMPTY", "CONTAINS"], (5, 3, 1, 1))[0]
        if test == "predicate":
            return (test, self.random.choice(PREDICATES), self.expression("PERIOD", columns), self.expression("PERIOD", columns))
        if test == "compare":
            kind = self.random.choice(["INT", "TEXT", "DATE", "DATE"])
            return (test, self.random.choice(SIGNS), self.expression(kind, columns), self.expression(kind, columns), kind)
        return (test, self.expression("PERIOD", columns), *([self.expression("DATE", columns)] if test == "CONTAINS" else []))

    def table(self, name: str, count: int = 0) -> Table:
        columns = [(f"{name}_{kind.lower()}", kind) for kind in KINDS]
        rows = [[self.literal(kind) for kind in KINDS] for _ in range(count or self.random.randint(1, 6))]
        return Table(name, columns, rows, self.condition(columns) if self.random.random() < 0.5 else None,
                     self.change(columns) if self.random.random() < 0.5 else None)

    def change(self, columns: list[tuple[str, str]]) -> tuple:
        """The assignments and the condition of an UPDATE."""
        set_columns = self.random.sample(columns, self.random.randint(1, 3))
        return [(name, self.expression(kind, columns)) for name, kind in set_columns], self.condition(columns)

    def core(self, tables: list[Table], kinds: list[str]) -> Core:
        """A core of one table, or of two or three, of which some are the same one."""
        chosen = self.random.choices(tables, k=self.random.choice([1, 1, 2, 2, 2, 3]))
        aliases = [f"x{number}" for number in range(1, len(chosen) + 1)]
        columns = [(f"{alias}.{name}", kind) for alias, table in zip(aliases, chosen) for name, kind in table.columns]
        semi = None
        if self.random.random() < 0.5 and len(chosen) == 1:
            other = self.random.choice([table for table in tables if table is not chosen[0]])
            semi = (self.random.choice(["EXISTS", "NOT EXISTS"]), other.name, self.condition(columns + other.columns))
        items = [self.expression(kind, columns) for kind in kinds]
        return Core(items, [(table.name, alias) for table, alias in zip(chosen, aliases)], self.condition(columns), semi)

    def case(self) -> Case:
        tables = [self.table("t"), self.table("u"), self.table("v")]
        kinds = self.random.choices(KINDS, (2, 2, 3, 3), k=self.random.randint(1, 3))
        operators = self.random.choices(["UNION", "EXCEPT", "INTERSECT"], k=self.random.choice([0, 1, 1, 2]))
        cores = [self.core(tables, kinds) for _ in range(len(operators) + 1)]
        return Case(tables, cores, operators, kinds, self.forms)


    def numbered(self, name: str, count: int = 10) -> Table:
        """A table of ten rows, or of another number, whose numbers tell them apart."""
        table = self.table(name, count)
        return table._replace(rows=[[("literal", "INT", str(at)), *row[1:]] for at, row in enumerate(table.rows)], gone=None, changed=None)

    def case_of(self, word: str) -> Case:
        """The pairs of ten rows and ten others for which one test holds; or all pairs, with each function of their values."""
        tables = [self.numbered("t"), self.numbered("u")]
        columns = [[("column", *column) for column in table.columns] for table in tables]
        (n, _, date, period), (m, _, other_date, other_period) = columns
        if word in PREDICATES:
            condition = ("predicate", word, period, other_period)
        elif word in SIGNS:
            condition = ("compare", word, date, other_date, "DATE")
        else:
            others = {"EMPTY": ("EMPTY", period), "CONTAINS": ("CONTAINS", period, other_date)}
            condition = others.get(word, ("compare", "=", n, n, "INT"))
        items, kinds = [n, m], ["INT", "INT"]
        if word == "functions":
            items += [("START", period), ("END", period), ("LEAST", date, other_date), ("GREATEST", date, other_date),
                      ("COMMON", period, other_period), ("PERIOD", date, other_date)]
            kinds += ["DATE"] * 4 + ["PERIOD"] * 2
        return Case(tables, [Core(items, [("t", "t"), ("u", "u")], condition, None)], [], kinds, self.forms)


    def case_of_joined(self, names: str) -> Case:
        """The tuples of rows of tables of these names, each of which is there from a day on or before it; some are one table."""
        tables = {name: self.numbered(name, 6) for name in sorted(names)}
        for table in list(tables.values()):
            now, day = ("literal", "DATE", "now"), ("column", table.columns[2][0], "DATE")
            tables[table.name] = table._replace(gone=("compare", self.random.choice(["<", ">="]), now, day, "DATE"))
        aliases = [(name, f"x{number}") for number, name in enumerate(names, 1)]
        items = [("column", f"{alias}.{tables[name].columns[0][0]}", "INT") for name, alias in aliases]
        dates = [("column", f"{alias}.{tables[name].columns[2][0]}", "DATE") for name, alias in aliases]
        condition = ("compare", "<=", dates[0], dates[-1], "DATE")
        return Case(list(tables.values()), [Core(items, aliases, condition, None)], [], ["INT"] * len(names), self.forms)


JOINED = ("tt", "tut", "tuv", "ttt")
TESTS = (*PREDICATES, *SIGNS, "EMPTY", "CONTAINS", "functions")


def named(count: int, count_far: int) -> tuple[dict[str, Case], dict[str, Case]]:
    """Each test alone and some joins at each place of days, and random cases; and random cases with days that PostgreSQL has not."""
    near = {f"test_{at}_{place}": Maker(word, days).case_of(word)
            for at, word in enumerate(TESTS) for place, days in enumerate(PLACES)}
    near.update((f"joined_{names}_{place}", Maker(names, days).case_of_joined(names)) for names in JOINED for place, days in enumerate(PLACES))
    near.update((f"case_{number}", Maker(f"{number} False").case()) for number in range(count))
    return near, {f"far_{number}": Maker(f"{number} True", FAR).case() for number in range(count_far)}


def in_ongq(tree: tuple) -> str:
    """The expression or condition as ongq has it."""
    word, *parts = tree
    if word == "column":
        return parts[0]
    if word == "literal":
        kind, text = parts
        quoted = "'" + text.replace("'", "''") + "'"
        return {"INT": text, "TEXT": quoted, "DATE": "ONGOING " + quoted, "PERIOD": "PERIOD " + quoted}[kind]
    if word in ("compare", "predicate"):
        return f"{in_ongq(parts[1])} {parts[0]} {in_ongq(parts[2])}"
    if word in ("AND", "OR"):
        return f"({in_ongq(parts[0])} {word} {in_ongq(parts[1])})"
    if word == "NOT":
        return f"NOT ({in_ongq(parts[0])})"
    return f"{word}({', '.join(map(in_ongq, parts))})"


def core_in_ongq(core: Core) -> str:
    items = ", ".join(f"{in_ongq(item)} AS c{at}" for at, item in enumerate(core.items, 1))
    semi = "" if not core.semi else f" AND {core.semi[0]} (SELECT * FROM {core.semi[1]} WHERE {in_ongq(core.semi[2])})"
    return f"SELECT {items} FROM {', '.join(map(' '.join, core.tables))} WHERE ({in_ongq(core.condition)}){semi}"


def query_in_ongq(case: Case) -> str:
    return " ".join(part for pair in zip(map(core_in_ongq, case.cores), [*case.operators, ""]) for part in pair)


def script(case: Case) -> str:
    """The statements that make the tables, save them as new.NAME.csv and change them then."""
    lines = []
    for table in case.tables:
        lines.append(f"CREATE TABLE {table.name} ({', '.join(' '.join(column) for column in table.columns)});")
        tuples = ["(" + ", ".join(map(in_ongq, row)) + ")" for row in table.rows]
        lines.append(f"INSERT INTO {table.name} VALUES {', '.join(tuples)};\nSAVE {table.name} TO 'new.{table.name}.csv';")
        if table.gone:
            lines.append(f"DELETE FROM {table.name} WHERE {in_ongq(table.gone)};")
        if table.changed:
            given = ", ".join(f"{name} = {in_ongq(expression)}" for name, expression in table.changed[0])
            lines.append(f"UPDATE {table.name} SET {given} WHERE {in_ongq(table.changed[1])};")
    return "\n".join(lines)


def changes_in_sql(table: Table) -> str:
    """The same changes of a table in PostgreSQL: rows without the days that they lose, and changed rows on these."""
    made = f"UPDATE {table.name} SET days = days - {in_sql(table.gone)};\n" if table.gone else ""
    if table.changed:
        given, condition = dict(table.changed[0]), in_sql(table.changed[1])
        new = ", ".join(in_sql(given[name]) if name in given else name for name, _ in table.columns)
        made += (f"WITH old AS (DELETE FROM {table.name} RETURNING *) INSERT INTO {table.name}\n    SELECT {', '.join(name for name, _ in table.columns)}, "
                 f"days - {condition} FROM old\n    UNION ALL SELECT {new}, days * {condition} FROM old;\n")
    return made + f"DELETE FROM {table.name} WHERE isempty(days);\n"


def compared(sign: str, kind: str, left: str, right: str) -> str:
    """The days on which a comparison holds."""
    if kind != "DATE":
        return f"ongoing.days({left} {sign} {right})"
    name = {"=": "same", "<>": "differs", "<": "less", ">": "less", "<=": "at_most", ">=": "at_most"}[sign]
    left, right = bare(left, right)
    return f"{name}({right}, {left})" if sign in (">", ">=") else f"{name}({left}, {right})"


def bare(left: str, right: str) -> list[str]:
    """Two points or periods for a function, of which the one that is a literal stands there by its text alone, if the other is none."""
    literals = [re.fullmatch("read_(?:point|period)\\(('[^']*')\\)", part) for part in (left, right)]
    return [left, right] if all(literals) else [found[1] if found else part for found, part in zip(literals, (left, right))]


def in_sql(tree: tuple) -> str:
    """The expression as PostgreSQL has it, or the days on which the condition holds."""
    word, *parts = tree
    if word == "column":
        return parts[0]
    if word == "literal":
        kind, text = parts
        quoted = "'" + text.replace("'", "''") + "'"
        return {"INT": f"({text})::bigint", "TEXT": f'{quoted}::text COLLATE "C"', "DATE": f"read_point({quoted})",
                "PERIOD": f"read_period({quoted})"}[kind]
    if word == "compare":
        return compared(parts[0], parts[3], in_sql(parts[1]), in_sql(parts[2]))
    if word == "predicate":
        return f"{parts[0].lower()}({', '.join(bare(in_sql(parts[1]), in_sql(parts[2])))})"
    if word == "NOT":
        return f"other_days({in_sql(parts[0])})"
    if word in ("AND", "OR"):
        return f"({in_sql(parts[0])} {'*' if word == 'AND' else '+'} {in_sql(parts[1])})"
    given = list(map(in_sql, parts))
    return f"{FUNCTIONS[word]}({', '.join(bare(*given) if len(given) == 2 else given)})"


def any_days(days: str, rest: str) -> str:
    """The days on which some row has them."""
    return f"coalesce((SELECT range_agg({days}) FROM {rest}), '{{}}')"


def core_in_sql(core: Core) -> str:
    items = "".join(f"{in_sql(item)} AS c{at}, " for at, item in enumerate(core.items, 1))
    days = " * ".join([*(f"{alias}.days" for _, alias in core.tables), in_sql(core.condition)])
    if core.semi:
        found = any_days(f"{core.semi[1]}.days * {in_sql(core.semi[2])}", core.semi[1])
        days = f"({days}) {'*' if core.semi[0] == 'EXISTS' else '-'} {found}"
    return f"SELECT {items}{days} AS days FROM {', '.join(map(' '.join, core.tables))}"


def combined(operator: str, left: str, right: str, kinds: list[str]) -> str:
    """The rows of a set operator: a row of the left goes, or stays, on the days on which the right has the same row."""
    if operator == "UNION":
        return f"SELECT * FROM ({left}) l UNION ALL SELECT * FROM ({right}) r"
    same = [f"same(l.c{at}, r.c{at})" if kind in ("DATE", "PERIOD") else f"ongoing.days(l.c{at} = r.c{at})"
            for at, kind in enumerate(kinds, 1)]
    there = any_days(" * ".join(["r.days", *same]), f"({right}) r")
    names = "".join(f"c{at}, " for at in range(1, len(kinds) + 1))
    return f"SELECT {names}l.days {'-' if operator == 'EXCEPT' else '*'} {there} AS days FROM ({left}) l"


def query_in_sql(case: Case) -> str:
    query = core_in_sql(case.cores[0])
    for operator, core in zip(case.operators, case.cores[1:]):
        query = combined(operator, query, core_in_sql(core), case.kinds)
    return query


SET_OPERATORS = ("UNION", "EXCEPT", "INTERSECT", "EXISTS", "NOT EXISTS")
ALL_WORDS = [f"form {form}" for form in FORMS]
ALL_WORDS += [f"word {word}" for word in (*SIGNS, *PREDICATES, *FUNCTIONS, *SET_OPERATORS, "NOT", "AND", "OR", "DELETE", "UPDATE", "self join",
                                             "three tables")]


def words_in(tree: tuple) -> list[str]:
    """The words, signs and predicates of an expression or a condition."""
    word, *parts = tree
    own = {"compare": parts[:1], "predicate": parts[:1], "column": [], "literal": []}.get(word, [word])
    return own + [found for part in parts if isinstance(part, tuple) for found in words_in(part)]


def words(case: Case) -> list[str]:
    """What occurs in a case, as ALL_WORDS has it."""
    trees = [table.gone for table in case.tables if table.gone]
    trees += [tree for table in case.tables if table.changed for tree in (table.changed[1], *(given for _, given in table.changed[0]))]
    semis = [core.semi for core in case.cores if core.semi]
    trees += [core.condition for core in case.cores] + [semi[2] for semi in semis]
    trees += [item for core in case.cores for item in core.items]
    found = [word for tree in trees for word in words_in(tree)] + case.operators + [semi[0] for semi in semis]
    found += ["DELETE" for table in case.tables if table.gone] + ["UPDATE" for table in case.tables if table.changed]
    found += ["self join" for core in case.cores if len({name for name, _ in core.tables}) < len(core.tables)]
    found += ["three tables" for core in case.cores if len(core.tables) == 3]
    return [f"form {form}" for form in case.forms] + [f"word {word}" for word in found]
