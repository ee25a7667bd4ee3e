"""Texts of points and periods, and others that are none: ongq, Python and PostgreSQL read or refuse the same ones."""
from __future__ import annotations

import subprocess
from typing import Any

import answers
import cases
from answers import ongq

DAY = "2020-01-01"
POINTS = ("now", "now+", "+now", "+", "", " now", "NOW", "2020-01-01", "2020-01-01 ", "2020-1-1", "2020-02-29", "2019-02-29", "2020-13-01",
          "2020-01-00", "-000000-01-01", "-000044-03-15", "-00044-03-15", "0000-02-29", "0001-02-29", "9999-12-31", "10000-01-01",
          "+002020-02-29", "20200101", "infinity", "-infinity", "Infinity", "2020-01-01+", "+2020-01-01", "2020-01-01+2020-01-01",
          "2020-01-02+2020-01-01", "2019-12-01+2020-02-01", "-000044-03-15+0000-02-29", "0000-02-29+-000044-03-15", "infinity+",
          "+infinity", "-infinity+", "2020-01-01+infinity", "2020-01-01++", "2020-01-01+2020-01-02+", "today", "2020-01-01T00:00:00")
PERIODS = ("[now,now)", "[2020-01-01,now)", "[2020-01-01, now)", "[2020-01-01,now]", "(2020-01-01,now)", "[2020-01-01)", "[,now)",
           "[2020-01-01,)", "[2020-01-01,now,now)", "[2020-01-01+2020-02-01,-infinity)", "[infinity,-infinity)", "2020-01-01,now",
           "[2020-01-01,now)x", "[[2020-01-01,now))", "empty", "[2020-02-30,now)")
KINDS = {"DATE": (POINTS, ongq.read_point, "read_point"), "PERIOD": (PERIODS, ongq.read_period, "read_period")}


def of_ongq(test: Any, kind: str, text: str) -> str:
    """The value on the day as the program prints it, or nothing where it refuses the text."""
    test.put("f", f'ongq:2\nn:INT,v:{kind}\n1,"{text}",*\nrows:1\n')
    done = subprocess.run([test.program, "at", "f", DAY], cwd=test.folder, capture_output=True)
    return answers.records(done.stdout.decode())[1][1] if done.returncode == 0 else ""


def of_python(read: Any, text: str) -> str:
    try:
        return str(read(text).at(ongq.read_day(DAY)))
    except ValueError:
        return ""


def of_postgres(test: Any, function: str, texts: tuple[str, ...]) -> list[str]:
    test.postgres.ask(f"""SET search_path = public, ongoing;
        CREATE OR REPLACE FUNCTION tried(t text) RETURNS text LANGUAGE plpgsql SET search_path = public, ongoing AS $$ BEGIN
        RETURN show(at({function}(t), '{DAY}')); EXCEPTION WHEN others THEN RETURN ''; END $$;""")
    listed = ", ".join(f"'{text}'" for text in texts)
    output = test.postgres.ask(f"SELECT tried(t) || '.' FROM unnest(ARRAY[{listed}]) WITH ORDINALITY AS texts(t, at) ORDER BY at;")
    return [line[:-1] for line in output.splitlines()]


def try_texts(test: Any) -> None:
    for kind, (texts, read, function) in KINDS.items():
        wanted = [of_ongq(test, kind, text) for text in texts]
        test.same("texts", f"{kind} of Python", dict(zip(texts, wanted)), {text: of_python(read, text) for text in texts})
        if test.postgres:
            test.same("texts", f"{kind} of PostgreSQL", dict(zip(texts, wanted)), dict(zip(texts, of_postgres(test, function, texts))))


RANGES = {"[2023-05-01,)": "[2023-05-01,infinity)", "(,2023-05-01)": "[-infinity,2023-05-01)", "(,)": "[-infinity,infinity)", "empty": "[infinity,-infinity)",
          "[2023-05-01,infinity)": "[2023-05-01,infinity)", "[-infinity,2023-05-01)": "[-infinity,2023-05-01)", "[2023-05-01,2023-05-31]": "[2023-05-01,2023-06-01)"}
OTHERS = ("[2023-04-01,now)", "[2023-05-15,2023-06-15)", "[now,2023-05-01)", "[2023-05-01,infinity)", "[2024-01-01,2023-01-01)")


def try_ranges(test: Any) -> None:
    """A daterange is the period that ongq has for it, also beside another period: each predicate holds on the same days."""
    found = test.postgres.ask(f"""SET search_path = public, ongoing;
        SELECT (r::daterange)::ongoing_period::text FROM (VALUES {", ".join(f"('{text}')" for text in RANGES)}) AS given(r);""")
    test.same("dateranges", "as periods", RANGES, dict(zip(RANGES, found.splitlines())))
    for name in cases.PREDICATES:
        script = "CREATE TABLE a (n INT, a PERIOD); CREATE TABLE b (m INT, b PERIOD);\n"
        for table, texts in (("a", RANGES.values()), ("b", OTHERS)):
            script += "".join(f"INSERT INTO {table} VALUES ({at}, PERIOD '{text}');\n" for at, text in enumerate(texts))
        answers.run(test.program, test.folder, script + f"KEEP r AS SELECT n, m FROM a, b WHERE a {name} b; SAVE r TO 'ranges.csv';")
        wanted = sorted([str(n), str(m), str(days)] for (n, m), days in ongq.read(test.file("ranges.csv")).entries)
        ranges, others = (", ".join(f"({at}, '{text}')" for at, text in enumerate(texts)) for texts in (RANGES, OTHERS))
        found = test.postgres.ask(f"""SET search_path = public, ongoing;
            WITH pairs AS (SELECT n, m, {name.lower()}(a::daterange, b::text) AS days FROM (VALUES {ranges}) AS a(n, a), (VALUES {others}) AS b(m, b))
            SELECT n, m, CASE show(days) WHEN '*' THEN '{ongq.ALL_DAYS}' ELSE show(days) END FROM pairs WHERE NOT isempty(days);""")
        test.same("dateranges", name, wanted, sorted(line.split("|") for line in found.splitlines()))


def try_functions(test: Any) -> None:
    """The functions of the extension are immutable and parallel safe, but for those that read or make tables; NULL gives NULL."""
    found = test.postgres.ask("""SELECT string_agg(proname, ' ' ORDER BY proname) FROM pg_proc
        WHERE pronamespace = 'ongoing'::regnamespace AND (provolatile <> 'i' OR proparallel <> 's');""")
    wanted = "columns_for columns_of create_table has_columns has_days make_as_of save_header save_query type_at unload_query\n"
    test.same("functions", "those that are not immutable", wanted, found)
    found = test.postgres.ask("""SET search_path = public, ongoing;
        SELECT num_nulls(at(NULL::ongoing_point, '2020-01-01'), at(read_point('now'), NULL), at(read_period('[now,now)'), NULL),
            less(NULL, read_point('now')), at_most(read_point('now'), NULL), overlaps(NULL, read_period('[now,now)')),
            before(read_period('[now,now)'), NULL), days(NULL), other_days(NULL), contains(NULL, read_point('now')), read_point(NULL));""")
    test.same("functions", "NULL for NULL", "11\n", found)
