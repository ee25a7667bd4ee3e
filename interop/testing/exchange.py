"""load, save and unload: tables of PostgreSQL as files of ongq, and back."""
from __future__ import annotations

import os
import re
import shutil
import subprocess
from typing import Any

import answers
import server


def call(test: Any, *words: str) -> tuple[int, str]:
    """The status and the output of load or unload."""
    done = subprocess.run([f"{answers.INTEROP}/postgres/{words[0]}", *words[1:]], cwd=test.folder,
                          env=test.postgres.environment(), capture_output=True, text=True)
    return done.returncode, done.stdout


# Files that load refuses: cut, with more and fewer rows than they say, with what PostgreSQL has not, and no number.
REFUSED = {"more rows": "ongq:2\nn:INT\n1,*\n2,*\nrows:1\n", "fewer rows": "ongq:2\nn:INT\n1,*\nrows:2\n",
           "more rows in version 1": 'n:INT,rows:1\n1,"{[-infinity,infinity)}"\n2,"{[-infinity,infinity)}"\n',
           "a text with NUL": "ongq:2\ns:TEXT\na\0b,*\nc,*\nrows:2\n", "a date that PostgreSQL has not": "ongq:2\nd:DATE\n-004713-11-23,*\nrows:1\n",
           "a number of 5,000 digits": f"ongq:2\nn:INT\n{'9' * 5_000},*\nrows:1\n"}

# Days of rows up to PostgreSQL's first, and what is left of them there.
BEFORE_FIRST = {"{[-009999-01-02,-005000-06-01)}": "{}", "{[-infinity,-004713-11-24)}": "{}", "{[-infinity,-004713-11-25)}": "{[-infinity,-004713-11-25)}",
                "{[-009999-01-02,-009000-01-01),[-004713-11-23,2020-01-01)}": "{[-infinity,2020-01-01)}",
                "{[-infinity,-009000-01-01),[-004713-11-24,infinity)}": "*", "{[-009000-01-01,infinity)}": "*", "{[-004713-11-25,infinity)}": "{[-004713-11-25,infinity)}"}


def try_days_before_first(test: Any, postgres: server.Server) -> None:
    """Days before PostgreSQL's first fall away in load, and where PostgreSQL reads the text of a set."""
    rows = "".join(f'{number},"{days}"\n' for number, days in enumerate(BEFORE_FIRST))
    test.put("before.csv", f"ongq:2\nn:INT\n{rows}rows:{len(BEFORE_FIRST)}\n")
    test.same("load", "of days before PostgreSQL's first", (0, ""), call(test, "load", "before.csv", "before"))
    found = postgres.ask("SELECT ongoing.show(days) FROM before ORDER BY n;").splitlines()
    test.same("load", "days before PostgreSQL's first", BEFORE_FIRST, dict(zip(BEFORE_FIRST, found)))
    listed = ", ".join(f"('{days}')" for days in BEFORE_FIRST)
    found = postgres.ask(f"SELECT ongoing.show(ongoing.read_days(text)) FROM (VALUES {listed}) AS given(text);").splitlines()
    test.same("load", "days before PostgreSQL's first, as texts", BEFORE_FIRST, dict(zip(BEFORE_FIRST, found)))


def try_load(test: Any, postgres: server.Server) -> None:
    """load of a whole file, of one that is cut, and of others that are refused."""
    for name, text in REFUSED.items():
        test.put("spoilt.csv", text)
        test.same("load", name, (5, ""), call(test, "load", "spoilt.csv", "refused"))
        test.same("load", f"no table of {name}", "\n", postgres.ask("SELECT to_regclass('refused');"))
    shutil.copy(f"{answers.TOP}/examples/patches.left/r.csv", test.file("r.csv"))
    test.put("cut.csv", test.text("r.csv")[:-8])
    test.same("load", "its status", (0, ""), call(test, "load", "r.csv", "loaded"))
    found = postgres.ask("COPY (SELECT * FROM loaded_as_of('2020-08-16') ORDER BY 1, 2) TO STDOUT (FORMAT csv)")
    test.same("load", "its table", "500,201\n501,201\n", found)
    test.same("load", "of a cut file", (5, ""), call(test, "load", "cut.csv", "cut"))
    test.same("load", "no table of a cut file", "\n", postgres.ask("SELECT to_regclass('cut');"))


def try_unload(test: Any, postgres: server.Server) -> None:
    """unload of a table with dates that are open, whose file ongq imports, and of one with NULL."""
    postgres.ask("""CREATE TABLE staff (name varchar(20), number int, works daterange, born date);
        INSERT INTO staff VALUES ('Ines, "I"', 1, '[2023-05-01,)', '0044-03-15 BC'), ('', -2, '(,2024-01-01]', '2000-02-29'),
            ('Jon', 3, 'empty', 'infinity'), ('Kim', 4, '[2020-01-01,infinity)', '-infinity');""")
    kinds = "name TEXT, number INT, works PERIOD, born DATE"
    for word, end in (("now", "2026-01-15"), ("infinite", "infinity")):
        test.same("unload", word, (0, f"CREATE TABLE staff ({kinds});\n"), call(test, "unload", "staff", "staff.csv", word))
        found = answers.run(test.program, test.folder, f"CREATE TABLE staff ({kinds}); IMPORT INTO staff FROM 'staff.csv';"
                            "PRINT staff AS OF DATE '2026-01-15';")
        wanted = [["", "-2", "[-infinity,2024-01-02)", "2000-02-29"],
                  ["Ines, \"I\"", "1", f"[2023-05-01,{end})", "-000043-03-15"],
                  ["Jon", "3", "[infinity,-infinity)", "infinity"],
                  ["Kim", "4", f"[2020-01-01,{end})", "-infinity"]]
        test.same("unload", f"what is imported, {word}", wanted, answers.records(found)[1:])
    postgres.ask("INSERT INTO staff VALUES (NULL, 5, 'empty', 'infinity');")
    test.same("unload", "of NULL", (1, f"CREATE TABLE staff ({kinds});\n"), call(test, "unload", "staff", "none.csv", "now"))
    test.same("unload", "no file", False, os.path.exists(test.file("none.csv")))


def try_reserved_words(test: Any, postgres: server.Server) -> None:
    """The names that unload refuses are the words that docs/LANGUAGE.md has as reserved."""
    with open(f"{answers.TOP}/docs/LANGUAGE.md", encoding="utf-8") as file:
        said = re.search(r"These words are reserved and are no\s+names: ([a-z,\s]*)\.", file.read())
    known = postgres.ask("SELECT pg_get_functiondef('ongoing.name_of(name, boolean)'::regprocedure);")
    test.same("what is refused", "reserved words", sorted(re.split(r",\s+", said[1]) if said else []), sorted(re.findall("'([a-z]+)'::text", known)))


def try_refused(test: Any, postgres: server.Server) -> None:
    """What ongq would refuse, save and unload refuse, and leave no file."""
    many = ", ".join(f"c{number} int" for number in range(65))
    postgres.ask(f"""CREATE SCHEMA refused; SET search_path = refused, ongoing; CREATE TABLE words (a int, "b c" int); CREATE TABLE letters ("é" int);
        CREATE TABLE reserved (id int, period daterange); CREATE TABLE twice (a int, "A" int); CREATE TABLE "end" (a int);
        CREATE TABLE many ({many}); CREATE TABLE none (); CREATE TABLE numbers (a numeric); CREATE TABLE hits (a int, days datemultirange);
        CREATE TABLE nulls (a int, days datemultirange); INSERT INTO nulls VALUES (1, NULL); CREATE TABLE nulls_too (a int, days datemultirange);
        INSERT INTO nulls_too VALUES (NULL, '{{(,)}}'); CREATE TABLE far (a date); INSERT INTO far VALUES ('10000-01-01');""")
    neither = ("words", "letters", "many", "none", "numbers", "nulls", "nulls_too", "far")
    for table in (*neither, "reserved", "twice", '"end"', "hits", "missing"):
        status, _ = call(test, "unload", f"refused.{table}", "refused.csv", "now")
        test.same("what is refused", f"unload {table}", (1, False), (status, os.path.exists(test.file("refused.csv"))))
    for table in (*neither, "missing"):
        test.same("what is refused", f"save {table}", (1, ""), call(test, "save", f"refused.{table}", "refused.csv"))
        test.same("what is refused", f"save {table}, no file", False, os.path.exists(test.file("refused.csv")))
    for table in ("reserved", "twice", '"end"', "hits"):
        test.same("what is refused", f"but save {table}", (0, ""), call(test, "save", f"refused.{table}", "saved.csv"))
        test.same("what is refused", f"but open {table}", 2, len(answers.run(
            test.program, test.folder, "OPEN r FROM 'saved.csv'; PRINT r AS OF DATE '2026-01-15'; TABLES;").splitlines()[1:]))


SAVED = '''ongq:2
n:INT,name:TEXT,day:DATE,works:PERIOD,vt:PERIOD
1,"a,""b""",now,"[2020-01-01,infinity)","[now,2020-01-01)",*
2,,2020-01-01,"[infinity,-infinity)","[-infinity,infinity)","{[2020-01-01,2020-02-01),[2021-01-01,infinity)}"
4,"x\ry\\",+2020-01-01,"[-infinity,2020-01-01)","[2020-01-01+,0000-02-29)","{[-infinity,2020-01-01)}"
5,*,-000043-03-15,"[2020-01-01,2020-01-02)","[2020-01-01,now)",*
rows:4
'''


def try_save(test: Any, postgres: server.Server) -> None:
    """save of a table of each kind, of a view, of a table without days, and of what was loaded."""
    postgres.ask("""SET search_path = public, ongoing;
        CREATE TABLE "Kept" ("N" int, name varchar(9), day ongoing_point, works daterange, vt ongoing_period, days datemultirange);
        INSERT INTO "Kept" VALUES (1, 'a,"b"', text 'now', '[2020-01-01,)', text '[now,2020-01-01)', '{(,)}'),
            (2, '', date '2020-01-01', 'empty', daterange '(,)', '{[2020-01-01,2020-02-01),[2021-01-01,)}'), (3, '', date '2020-01-01', 'empty', daterange '(,)', '{}'),
            (4, E'x\\ry\\\\', text '+2020-01-01', '(,2020-01-01)', text '[2020-01-01+,0000-02-29)', '{(,2020-01-01)}'),
            (5, '*', date '0044-03-15 BC', '[2020-01-01,2020-01-02)', text '[2020-01-01,now)', '{(,9999-12-31],[9999-12-31,)}'),
            (6, '', date '2020-01-01', 'empty', daterange '(,)', '{[10000-01-01,)}');
        CREATE VIEW kept_view AS SELECT * FROM "Kept"; CREATE TABLE no_days AS SELECT "N" AS n, name FROM "Kept" WHERE "N" < 3;""")
    for name in ('"Kept"', "kept_view"):
        test.same("save", name, (0, ""), call(test, "save", name, "kept.csv"))
        test.same("save", f"the file of {name}", SAVED, test.text("kept.csv"))
    answers.run(test.program, test.folder, "OPEN r FROM 'kept.csv'; SAVE r TO 'again.csv';")
    test.same("save", "the file that ongq opens and saves", SAVED, test.text("again.csv"))
    call(test, "save", "no_days", "none.csv")
    test.same("save", "of a table without days", 'ongq:2\nn:INT,name:TEXT\n1,"a,""b""",*\n2,,*\nrows:2\n', test.text("none.csv"))
    os.remove(test.file("none.csv"))
    call(test, "save", "loaded", "loaded.csv")
    test.same("save", "of what was loaded", test.text("r.csv"), test.text("loaded.csv"))
    test.same("save", "without a file", (2, ""), call(test, "save", "loaded"))


def try_exchange(test: Any, postgres: server.Server) -> None:
    try_load(test, postgres)
    try_days_before_first(test, postgres)
    try_unload(test, postgres)
    try_save(test, postgres)
    try_refused(test, postgres)
    try_reserved_words(test, postgres)
