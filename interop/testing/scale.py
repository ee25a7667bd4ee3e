"""The blocks of docs/SCALE.md, over two small tables, of which the page says of VALID what it says of the large ones."""
from __future__ import annotations

import re
from typing import Any

import answers

TABLES = """CREATE TABLE bugs (id INT, comp TEXT, vt PERIOD);
INSERT INTO bugs VALUES (1, 'a', PERIOD '[2020-05-31,now)'), (2, 'a', PERIOD '[2020-06-01,now)'),
    (3, 'a', PERIOD '[2025-12-26,now)'), (4, 'b', PERIOD '[2020-01-01,2020-03-01)'), (5, 'b', PERIOD '[2020-01-01,infinity)');
CREATE TABLE patch (id INT, comp TEXT, vt PERIOD);
INSERT INTO patch VALUES (6, 'a', PERIOD '[2020-01-01,infinity)'), (7, 'b', PERIOD '[2020-02-01,2020-04-01)');
KEEP hits AS SELECT b.id, p.id AS pid FROM bugs b JOIN patch p ON b.comp = p.comp WHERE b.vt OVERLAPS p.vt;
SAVE bugs TO 'bugs.csv';
SAVE patch TO 'patch.csv';
SAVE hits TO 'hits.csv';
"""


def try_scale(test: Any) -> None:
    """VALID of the answer as of both days of the page; and the answer as of one, in PostgreSQL where it is there."""
    with open(f"{answers.TOP}/docs/SCALE.md", encoding="utf-8") as file:
        page = file.read()
    blocks = dict(re.findall("^```([a-z]+) by: interop/test\n(.*?)^```$", page, re.MULTILINE | re.DOTALL))
    with open(f"{answers.TOP}/examples/patches.sql", encoding="utf-8") as file:
        comment, part = blocks["part"].split("\n", 1)
        test.same("blocks of docs/SCALE.md", comment, True, part in file.read())
    day = "2020-06-01"
    printed = answers.run(test.program, test.folder, f"{TABLES}PRINT hits AS OF DATE '{day}';")
    for script in (blocks["ongq"], f"OPEN r FROM 'hits.csv'; VALID r AS OF DATE '{day}';"):
        held = answers.run(test.program, test.folder, script).splitlines()[1]
        test.same("blocks of docs/SCALE.md", script, True, f"`{held}`" in page)
    if test.postgres:
        tables = "".join(answers.table(test.file(f"{name}.csv"), name) for name in ("bugs", "patch"))
        path = "SET client_min_messages = warning;\nCREATE SCHEMA scale;\nSET search_path = scale, public, ongoing;\n"
        found = test.postgres.ask(path + tables + blocks["sql"].replace("public", "scale, public"))
        wanted = ["|".join(row) for row in answers.records(printed)[1:]]
        test.same("blocks of docs/SCALE.md", blocks["sql"], wanted, sorted(filter(None, found.splitlines())))
