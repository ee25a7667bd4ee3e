"""Compares ongq with Python and PostgreSQL, row by row; interop/test tells how it is called."""
from __future__ import annotations

import collections
import importlib.util
import os
import random
import re
import shutil
import signal
import subprocess
import sys
import tempfile
from typing import Optional

sys.dont_write_bytecode = True
import answers  # noqa: E402
import cases  # noqa: E402
import document  # noqa: E402
import exchange  # noqa: E402
import extension  # noqa: E402
import page  # noqa: E402
import scale  # noqa: E402
import server  # noqa: E402
import texts  # noqa: E402
from answers import ongq  # noqa: E402

CASES, FAR_CASES, AT_ONCE, VIEWS = 300, 30, 26, 8
FIRST = ongq.read_day(answers.FIRST_OF_POSTGRES)
PREPARED = "SET client_min_messages = warning;\nSET search_path = public, ongoing;\n"


class Test:
    """What was compared and what differed. Each difference is told once it is found."""

    def __init__(self, program: str, folder: str, postgres: Optional[server.Server]) -> None:
        self.program, self.folder, self.postgres = program, folder, postgres
        self.compared: collections.Counter = collections.Counter()
        self.differences = 0

    def same(self, what: str, case: str, wanted: object, found: object) -> None:
        self.compared[what] += 1
        if wanted != found:
            self.differences += 1
            if self.differences <= 10:
                print(f"{what}, {case}: wanted\n    {wanted}\nfound\n    {found}")

    def same_answers(self, what: str, case: str, wanted: answers.Answers, found: answers.Answers) -> None:
        for day, rows in wanted.items():
            self.same(what, f"{case}, as of {day}", rows, found[day])

    def file(self, name: str) -> str:
        return os.path.join(self.folder, name)

    def text(self, name: str) -> str:
        with open(self.file(name), encoding="utf-8", newline="") as file:
            return file.read()

    def put(self, name: str, text: str) -> None:
        with open(self.file(name), "w", encoding="utf-8", newline="") as file:
            file.write(text)


class Asked:
    """A saved file that is asked on its days, and what ongq printed."""

    def __init__(self, test: Test, name: str, file: str, printed: answers.Answers) -> None:
        self.test, self.name, self.file, self.printed = test, name, test.file(file), printed
        self.days = [day for day in printed if ongq.read_day(day) >= FIRST]
        self.saved = ongq.read(self.file)
        self.in_postgres = self.has_query = self.has_last = False

    def python(self) -> None:
        self.test.same_answers("Python's rows", self.name, self.printed, answers.of_python(self.file, list(self.printed)))

    def script(self, query: str = "", has_last: bool = False, as_view: bool = False) -> str:
        """The script for psql: the file as a table r_NAME, and where there is a query its answer as q_NAME, or a view of it."""
        columns, kinds = answers.load.names(self.saved.columns), [column.kind for column in self.saved.columns]
        made = answers.table(self.file, f"r_{self.name}")
        made += answers.asked(f"r_{self.name}", columns, kinds, self.days) + answers.kept_asked(f"r_{self.name}", columns)
        if query:
            made += answers.query_table(f"q_{self.name}", query, as_view) + answers.asked(f"q_{self.name}", columns, kinds, self.days)
        if has_last:
            made += answers.last_asked(f"r_{self.name}") + answers.last_asked(f"q_{self.name}")
        self.in_postgres, self.has_query, self.has_last = True, query != "", has_last
        return made

    def postgres(self, pieces: dict[str, answers.Rows]) -> None:
        same, name = self.test.same, self.name
        wanted = {day: self.printed[day] for day in self.days}
        loaded = answers.by_day(pieces[f"r_{name}"], self.days)
        self.test.same_answers("PostgreSQL's as_of of the loaded file", name, wanted, loaded)
        same("the texts of the loaded rows", name, self.texts(), sorted(pieces[f"r_{name} kept"]))
        if self.has_query:
            self.test.same_answers("the query asked in PostgreSQL", name, wanted, answers.by_day(pieces[f"q_{name}"], self.days))
        if self.has_last:
            same("PostgreSQL's last day", name, pieces[f"r_{name} last"], pieces[f"q_{name} last"])

    def texts(self) -> answers.Rows:
        """The rows of the file as texts, with their days from PostgreSQL's first on."""
        rows = []
        for row, days in self.saved.entries:
            left = ongq.Days((ongq.FIRST if low <= FIRST else low, high) for low, high in days if high > FIRST)
            rows.append([*map(str, row), "*" if left == ongq.ALL_DAYS else str(left)])
        return sorted(rows)

    def has_far_values(self) -> bool:
        """Whether the file has a date that PostgreSQL has not."""
        points = [point for row, _ in self.saved.entries for value in row if isinstance(value, tuple)
                  for point in ([value] if isinstance(value, ongq.Point) else value)]
        return any(ongq.FIRST <= day < FIRST for point in points for day in point)


def compare(test: Test, asked: list[Asked], script: str) -> None:
    """Compares Python's answers, and PostgreSQL's after one run of psql."""
    for one in asked:
        one.python()
    if test.postgres:
        pieces = answers.of_postgres(test.postgres.ask(PREPARED + script))
        for one in asked:
            if one.in_postgres:
                one.postgres(pieces)


def make_case(test: Test, name: str, case: cases.Case, days: list[str], version: int) -> Asked:
    """Lets ongq make the tables of a case and its result NAME.csv, of version 1 or 2, and print it as of the days."""
    output = answers.run(test.program, test.folder, f"{answers.MARK}{cases.script(case)}\n"
                         f"KEEP r AS {cases.query_in_ongq(case)};\nSAVE r TO '{name}.csv';\n{answers.prints('r', days)}")
    asked = Asked(test, name, f"{name}.csv", answers.printed(output, days))
    if version == 2:
        ongq.write(test.file("again.csv"), asked.saved)
        test.same("the file that Python writes", name, test.text(f"{name}.csv"), test.text("again.csv"))
    else:
        test.put(f"{name}.csv", answers.version_1(test.text(f"{name}.csv")))
        again = answers.run(test.program, test.folder, f"{answers.MARK}OPEN r FROM '{name}.csv';\n{answers.prints('r', days)}")
        test.same_answers("the file of version 1, opened", name, asked.printed, answers.printed(again, days))
    return asked


def script_of(test: Test, asked: Asked, case: cases.Case, far: bool) -> str:
    """What PostgreSQL is asked. A file with a date that it has not is refused; such a query it cannot be asked."""
    if far:
        try:
            made, refused = asked.script(), False
        except ValueError:
            made, refused = "", True
        test.same("a date before PostgreSQL's first is refused", asked.name, asked.has_far_values(), refused)
        return made
    made = f"CREATE SCHEMA {asked.name};\nSET search_path = {asked.name}, public, ongoing;\n"
    for table in case.tables:
        made += answers.table(test.file(f"new.{table.name}.csv"), table.name) + cases.changes_in_sql(table)
    has_last = "9999-12-31" not in cases.script(case) + cases.query_in_ongq(case)
    as_view = chance_of(asked.name, VIEWS)
    test.compared["word view"] += as_view
    return made + asked.script(cases.query_in_sql(case), has_last, as_view)


def chance_of(name: str, part: int) -> bool:
    """True for about one name of each `part`, the same each time."""
    return random.Random(name).randrange(part) == 0


def try_cases(test: Test, named: dict[str, cases.Case], far: bool) -> None:
    """The cases, in turn with a file of version 2 and one of version 1."""
    asked, scripts = [], []
    for number, (name, case) in enumerate(named.items()):
        days = answers.days_around(cases.script(case) + cases.query_in_ongq(case), name, not far)
        asked.append(make_case(test, name, case, days, 2 - number % 2))
        test.compared.update(cases.words(case))
        test.compared[f"version {2 - number % 2}"] += 1
        if test.postgres:
            scripts.append(script_of(test, asked[-1], case, far))
    compare(test, asked, "".join(scripts))


def try_all_cases(test: Test) -> None:
    near, far = cases.named(CASES, FAR_CASES)
    for start in range(0, len(near), AT_ONCE):
        try_cases(test, dict(list(near.items())[start:start + AT_ONCE]), False)
    try_cases(test, far, True)
    for word in cases.ALL_WORDS + ["version 1", "version 2", *(["word view"] if test.postgres else [])]:
        test.same("words that occur", word, True, test.compared[word] >= 5)


def queries_of_examples() -> dict[str, str]:
    with open(os.path.join(answers.HERE, "examples.sql"), encoding="utf-8") as file:
        _, *pieces = re.split("^-- ([a-z]+ [a-z_0-9]+)\n", file.read(), flags=re.MULTILINE)
    return dict(zip(pieces[::2], pieces[1::2]))


class Example:
    """A script of examples/, in which each name that gets rows once for all is saved and printed where it gets them."""

    def __init__(self, name: str) -> None:
        with open(f"{answers.TOP}/examples/{name}.ongq", encoding="utf-8") as file:
            text = re.sub("--.*", "", file.read())
        self.name, self.days = name, answers.days_around(text, name, True)
        self.names: list[str] = []
        self.kept: list[tuple[str, list[str]]] = []
        self.script = answers.MARK + "".join(self.statement(part.strip()) for part in text.split(";") if part.strip())

    def statement(self, text: str) -> str:
        """The statement, without PRINT and the like, and what is added behind it."""
        words = text.split()
        if words[0] in ("PRINT", "VALID", "TABLES", "EXPLAIN", "SAVE", "Print", "create") or "visits" in words:
            return "" if words[0] != "SAVE" else text + ";\n"
        if words[0] == "DROP":
            self.names.remove(words[1])
        if words[0] == "CREATE":
            self.names.append(words[2])
        if words[0] not in ("KEEP", "LIVE", "OPEN"):
            return text + ";\n"
        made = text + ";\n" + "".join(f"SAVE {name} TO '{words[1]}.{name}.csv';\n" for name in [*self.names, words[1]])
        self.kept.append((words[1], list(self.names)))
        self.names.append(words[1])
        return made + answers.prints(words[1], self.days)


def try_example(test: Test, name: str, queries: dict[str, str]) -> None:
    example, files = Example(name), f"{answers.TOP}/examples/{name}.files"
    if os.path.isdir(files):
        shutil.copytree(files, test.folder, dirs_exist_ok=True)
    output, asked, scripts = answers.run(test.program, test.folder, example.script), [], []
    every = [day for _ in example.kept for day in example.days]
    pieces = list(answers.pieces(output, len(every)))
    for at, (kept, tables) in enumerate(example.kept):
        printed = dict(zip(example.days, pieces[at * len(example.days):]))
        asked.append(Asked(test, f"{name}_{kept}", f"{kept}.{kept}.csv", printed))
        query = queries.pop(f"{name} {kept}", "")
        schema = f"{name}_{kept}_tables"
        scripts.append(f"CREATE SCHEMA {schema};\nSET search_path = {schema}, public, ongoing;\n")
        scripts.extend(answers.table(test.file(f"{kept}.{table}.csv"), table) for table in tables if query)
        scripts.append(asked[-1].script(query))
    compare(test, asked, "".join(scripts))


def try_examples(test: Test) -> None:
    queries = queries_of_examples()
    for file in sorted(os.listdir(f"{answers.TOP}/examples")):
        if file.endswith(".ongq"):
            try_example(test, file[:-5], queries)
    test.same("queries without an example", "examples.sql", {}, queries)


WHOLE = """ongq:2
id:INT,name:TEXT,day:DATE,vt:PERIOD
-1,"a,b",+2020-01-31,"[2020-01-25,now)","{[-infinity,2020-01-31)}"
7,"",now,"[2020-01-01+2020-02-01,infinity)",*
rows:2
"""


def fault_of_ongq(program: str, folder: str, day: str) -> object:
    """What the program says of the file f: the rows, or the fault without its statement."""
    done = subprocess.run([program, "at", "f", day], cwd=folder, capture_output=True)
    text = done.stdout.decode()
    parts = re.fullmatch("fault (.*) statement 1(: .*)?\n", text)
    return (parts[1] + (parts[2] or "")) if done.returncode == 5 and parts else answers.records(text)[1:]


def fault_of_python(path: str, day: str) -> object:
    try:
        return answers.of_python(path, [day])[day]
    except ongq.Fault as fault:
        return str(fault)


def try_spoilt_files(test: Test) -> None:
    """Files that are cut after a byte, or have another byte at a place: ongq and Python say the same of each."""
    for version, text in (("1", answers.version_1(WHOLE)), ("2", WHOLE)):
        spoilt = [text[:length] for length in range(len(text))]
        chance = random.Random(version)
        for _ in range(150):
            at = chance.randrange(len(text))
            spoilt.append(text[:at] + chance.choice("0129+-,:\"[){*\n\r a\0") + text[at + chance.choice([0, 1, 1]):])
        for number, one in enumerate([text, *spoilt]):
            test.put("f", one)
            wanted = fault_of_ongq(test.program, test.folder, "2020-01-30")
            found = fault_of_python(test.file("f"), "2020-01-30")
            test.same("what is said of a spoilt file", f"version {version}, number {number}: {one}", wanted, found)


def has_module(name: str) -> bool:
    return importlib.util.find_spec(name) is not None


def try_all(test: Test, browser: Optional[str]) -> None:
    if test.postgres:
        extension.try_extension(test, test.postgres)
        exchange.try_exchange(test, test.postgres)
        texts.try_functions(test)
        texts.try_ranges(test)
    texts.try_texts(test)
    try_examples(test)
    try_all_cases(test)
    try_spoilt_files(test)
    scale.try_scale(test)
    page.try_drawings(test)
    if browser:
        page.try_page(test, browser)
    document.try_document(test)


def tell_left_out(postgres: Optional[server.Server], browser: Optional[str]) -> None:
    """Says by name what is not tried, as it is not on this machine."""
    there = {"PostgreSQL 15 or later that starts (initdb, psql, pg_config): the extension, load and unload": postgres,
             "Chromium that starts: the page of draw --html": browser, "pandas: to_dataframe of ongq, and read_csv of a saved file": has_module("pandas"),
             "IPython: cells of a notebook": has_module("IPython"), "mypy: the types of the package": shutil.which("mypy")}
    for name, found in there.items():
        if not found:
            print(f"interop/test: left out, as it is not here: {name}", flush=True)


def main(words: list[str]) -> int:
    for ending in (signal.SIGTERM, signal.SIGHUP):
        signal.signal(ending, lambda *_: sys.exit(1))
    browser = page.browser()
    with tempfile.TemporaryDirectory(prefix="ongq-interop-") as folder, server.started() as postgres:
        tell_left_out(postgres, browser)
        test = Test(os.path.abspath(words[0]), folder, postgres)
        try_all(test, browser)
    for what, count in sorted(test.compared.items()):
        if not what.startswith(("word ", "form ", "version ")):
            print(f"interop/test: {what}: {count:,} compared")
    print(f"interop/test: {test.differences:,} differences")
    return 1 if test.differences else 0


if __name__ == "__main__":
    sys.exit(main(sys.argv[1:]))
