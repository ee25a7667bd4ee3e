"""Measures the SQL of ongq_sql on 100,000 rows a side (a join without a key: 20,000), with ongq beside; interop/pace tells how it is called.

Each line has the seconds of a KEEP: those of psql by the clock, of all of PostgreSQL by the processor, of ongq's whole run over the same
files, and the most that is wanted: by the clock, or by the processor where other work has it. The plan of none may have a product, and
what both print has to be the same.
"""
from __future__ import annotations

import datetime
import json
import os
import random
import re
import signal
import subprocess
import sys
import tempfile
import time
from typing import NamedTuple

sys.path.insert(0, os.path.dirname(os.path.realpath(__file__)))
import server  # noqa: E402
from translated import END, ONGQ, Psql, processor_seconds, products  # noqa: E402


class Work(NamedTuple):
    """A query over two table files, the seconds of a form of SQL by hand that was measured before, and a day of a PRINT."""

    name: str
    tables: tuple[str, str]
    query: str
    by_hand: float
    day: str


KEYED, KEYLESS = "(id INT, k TEXT, vt PERIOD)", "(id INT, vt PERIOD)"
WORKS = [
    Work("key and overlap join", ("lefts", "rights"), "SELECT l.id, r.id AS other FROM lefts l JOIN rights r ON l.k = r.k WHERE l.vt OVERLAPS r.vt", 0.53, "2010-01-01"),
    Work("NOT EXISTS by key", ("lefts", "rights"),
         "SELECT id, k FROM lefts l WHERE NOT EXISTS (SELECT * FROM rights r WHERE r.k = l.k AND r.vt OVERLAPS l.vt)", 3.7, "2010-01-01"),
    Work("EXCEPT", ("lefts", "rights"), "SELECT k, vt FROM lefts EXCEPT SELECT k, vt FROM rights", 3.7, "2010-01-01"),
    Work("overlap without a key", ("early", "late"), "SELECT e.id, l.id AS other FROM early e JOIN late l ON e.vt OVERLAPS l.vt", 10.4, "2050-01-01"),
]
MOST, TIMES = 1.3, 3


def day(number: int) -> str:
    return str(datetime.date(2000, 1, 1) + datetime.timedelta(number))


def write_keyed(path: str) -> None:
    """100,000 rows of a number, one of 100,000 texts and a period of up to four years within 24, a fifth up to now."""
    with open(path, "w", encoding="utf-8") as file:
        file.write("id,k,vt\n")
        for number in range(100_000):
            first, length, sort = random.randrange(8760), random.randrange(1460), random.random() * 10
            end = "now" if sort < 2 else "+" + day(first + length) if sort < 3 else day(first + length)
            file.write(f'{number},k{random.randrange(100_000)},"[{day(first)},{end})"\n')


def write_keyless(path: str, begin: int) -> None:
    """20,000 periods of three days in a row, each tenth of which may end some days later."""
    with open(path, "w", encoding="utf-8") as file:
        file.write("id,vt\n")
        for number in range(20_000):
            first = 3 * number + begin
            end = day(first + 3) + ("" if number % 10 else "+" + day(first + 30))
            file.write(f'{number},"[{day(first)},{end})"\n')


def write_files(folder: str) -> None:
    random.seed(5)
    for name in ("lefts", "rights"):
        write_keyed(f"{folder}/{name}.csv")
    write_keyless(folder + "/early.csv", 0)
    write_keyless(folder + "/late.csv", 1)


def script(work: Work) -> str:
    kind = KEYED if "lefts" in work.tables else KEYLESS
    made = "".join(f"CREATE TABLE {name} {kind};\nIMPORT INTO {name} FROM '{name}.csv';\n" for name in work.tables)
    return f"{made}KEEP answer AS {work.query};\nPRINT answer AS OF DATE '{work.day}';\n"


class Clock:
    """What a psql's server needs, by the clock and by all of its processes."""

    def __init__(self, here: server.Server, psql: Psql) -> None:
        self.psql = psql
        psql.start()
        with open(here.folder + "/data/postmaster.pid", encoding="utf-8") as file:
            self.postmaster = int(file.readline())

    def put(self, sql: bytes) -> bytes:
        return self.psql.output(sql + b"\\o\n\\echo " + END.encode() + b"\n")

    def used(self) -> float:
        # The workers of a query are children of the first process, which have ended.
        return processor_seconds(self.psql.backend) + processor_seconds(self.postmaster, 13)

    def timed(self, sql: bytes) -> tuple[float, float, bytes]:
        began, used = time.time(), self.used()
        out = self.put(sql)
        return time.time() - began, self.used() - used, out


def measure(program: str, here: server.Server, work: Work, number: int, folder: str) -> bool:
    text = script(work).encode()
    began = time.time()
    wanted = subprocess.run([ONGQ, "run"], input=text, capture_output=True, cwd=folder).stdout
    ongq = time.time() - began
    sql = subprocess.run([program], input=text, capture_output=True, cwd=folder).stdout
    pieces = re.split(rb"\n(?=-- [A-Z])", sql)
    keep = next(piece for piece in pieces if piece.startswith(b"-- KEEP"))
    clock = Clock(here, Psql(here, f"pace_{number}"))
    for piece in pieces[:pieces.index(keep)]:
        clock.put(piece + b"\n")
    best = None
    for time_number in range(TIMES):
        found = clock.timed(keep + b"\n")
        best = min(best or found, found)
        if time_number < TIMES - 1:
            clock.put(b"DROP TABLE answer;\nDROP INDEX IF EXISTS late$outer2;\n")
    query = re.search(rb"^WITH .*?;\n", keep + b"\n", re.M | re.S)[0]
    plan = json.loads(clock.put(b"EXPLAIN (FORMAT JSON) " + query))[0]["Plan"]
    same = clock.put(b"\n".join(pieces[pieces.index(keep) + 1:]) + b"\n") == wanted
    clock.psql.stop()
    most = MOST * work.by_hand
    product = products(plan)
    is_fast = min(best[:2]) <= most
    print(f"{work.name}: psql {best[0]:.2f} s, processor {best[1]:.2f} s, ongq's whole run {ongq:.2f} s, at most {most:.2f} s"
          f"{'' if same else '; OTHER OUTPUT'}{''.join('; A PRODUCT ' + one for one in product)}{'' if is_fast else '; TOO SLOW'}", flush=True)
    return is_fast and same and not product


def main() -> int:
    program = os.path.realpath(sys.argv[1])
    for ending in (signal.SIGTERM, signal.SIGHUP):
        signal.signal(ending, lambda *_: sys.exit(1))  # so that no server is left
    with server.started() as here, tempfile.TemporaryDirectory() as folder:
        if here is None:
            print("interop/pace: left out, as it is not here: PostgreSQL 15 or later that starts")
            return 0
        write_files(folder)
        good = [measure(program, here, work, number, folder) for number, work in enumerate(WORKS)]
    return 0 if all(good) else 1


if __name__ == "__main__":
    sys.exit(main())
