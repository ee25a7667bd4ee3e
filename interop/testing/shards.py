"""Compares scripts that ongq_sql writes as SQL for many servers with ongq, over three servers on this machine, byte for byte.

    shards.py PROGRAM_OF_SQL [N [FIRST]]    N random scripts, 200 without it; and a server that is stopped in the middle
    shards.py PROGRAM_OF_SQL pace [ROWS]    the key join of 1,000,000 rows a side, or of ROWS, on one server and on three

The scripts are those of translated.py, but that the numbers of all tables stand in a column c1, by which they are spread, and
that most joins, EXISTS and answers have it.
"""
from __future__ import annotations

import contextlib
import os
import random
import re
import subprocess
import sys
import tempfile
import time

sys.path.insert(0, os.path.dirname(os.path.realpath(__file__)))
import cases as made  # noqa: E402
import server  # noqa: E402
import translated  # noqa: E402

KEY = "c1"
WORDS = ["--shard-by", KEY]
SETTING_UP = os.path.join(server.POSTGRES, "shards")
COUNT = 3


class Shards(translated.Trial):
    """Runs cases over the servers."""

    words = WORDS


class Coordinator(translated.Psql):
    """A psql at the coordinator, whose database is set up before."""

    clearing = "CALL shards.clear();"

    def make(self) -> None:
        pass


def keys_are_equal(one: str, two: str) -> tuple:
    return ("compare", "=", ("column", one, "INT"), ("column", two, "INT"), "INT")


def keyed_core(core: made.Core, is_answered: bool, rolls: random.Random) -> made.Core:
    """The core with the key in its answer, if that is wanted, and in most of its joins and its EXISTS."""
    (first, alias), *others = core.tables
    condition, items, semi = core.condition, list(core.items), core.semi
    for name, other in others:
        if rolls.random() < 0.75:
            condition = ("AND", keys_are_equal(f"{other}.{name}_int", f"{alias}.{first}_int"), condition)
    if others and condition is not core.condition and rolls.random() < 0.3:
        condition = condition[:2] + (("OR", condition[2], ("NOT", condition[2])),)
    if is_answered:
        items[0] = ("column", f"{alias}.{first}_int", "INT")
    if semi and rolls.random() < 0.75:
        semi = (*semi[:2], ("AND", keys_are_equal(f"{alias}.{first}_int", f"{semi[1]}.{semi[1]}_int"), semi[2]))
    return core._replace(condition=condition, items=items, semi=semi)


def spread(script: str) -> str:
    """The script with c1 for the numbers of all tables."""
    return re.sub(r"\b[tuv]_int\b", KEY, script)


def spread_case(number: int) -> translated.Case:
    """A random script; each fifth with a table of 120 rows, each third with a live result, and each fourth reads what it saved."""
    rolls = random.Random(f"spread {number}")
    maker = made.Maker(f"shards {number}")
    case = maker.case()
    is_answered = rolls.random() < 0.6
    kinds = ["INT", *case.kinds[1:]] if is_answered else case.kinds
    cores = [keyed_core(core, is_answered, rolls) for core in case.cores]
    tables = [table._replace(rows=table.rows * (120 // len(table.rows))) if number % 5 == 0 and table.name == "t" else table for table in case.tables]
    case = case._replace(kinds=kinds, cores=cores, tables=tables)
    query = made.query_in_ongq(case)
    is_live = number % 3 == 0 and not re.search("EXCEPT|INTERSECT|EXISTS", query)
    text = f"{made.script(case)}\n{'LIVE' if is_live else 'KEEP'} answer AS {query};\nSAVE answer TO 'answer.csv';\n"
    days = translated.days_of(text.encode())
    chosen = [days[at * (len(days) - 1) // 7] for at in range(8)]
    for at, day in enumerate(chosen):
        text += f"PRINT answer AS OF DATE '{day}'; VALID answer AS OF DATE '{day}';\n"
        if is_live and at == 3:
            text += "INSERT INTO t VALUES (1, 'a', ONGOING 'now', PERIOD '[2020-02-28,now)');\nDELETE FROM u WHERE u_int = 0;\n"
        if is_live and at == 5:
            text += "DROP t;\n"
    text += f"PRINT {query} AS OF DATE '{chosen[4]}';\n" if not is_live else "TABLES;\n"
    if number % 4 == 0:
        text += f"OPEN again FROM 'answer.csv';\nPRINT again AS OF DATE '{chosen[3]}';\n"
    one = translated.Case(f"shards {number}", "random")
    one.script += spread(text).encode()
    return one


@contextlib.contextmanager
def started(programs: str):
    """The servers, of which the first is the coordinator too, in another database."""
    with contextlib.ExitStack() as stack:
        servers = [stack.enter_context(server.Server(programs, True)) for _ in range(COUNT)]
        for one in servers:
            one.ask("CREATE DATABASE node")
        words = [f"host={servers[0].folder} user=ongq dbname=postgres", *(f"host={one.folder} user=ongq dbname=node" for one in servers)]
        subprocess.run([SETTING_UP, *words], check=True)
        yield servers


HELD = """CREATE TABLE a (c1 INT, vt PERIOD);
CREATE TABLE b (c1 INT, vt PERIOD);
IMPORT INTO a FROM 'rows.csv';
IMPORT INTO b FROM 'rows.csv';
"""
ASKED = ["KEEP pairs AS SELECT a.c1, b.vt FROM a JOIN b ON a.c1 = b.c1 WHERE a.vt OVERLAPS b.vt;", "PRINT a AS OF DATE '2020-01-01';",
         "PRINT SELECT a.c1, b.vt FROM a JOIN b ON a.c1 = b.c1 AS OF DATE '2020-01-01';", "DELETE FROM a WHERE c1 < 100;",
         "PRINT SELECT a.vt FROM a JOIN b ON a.vt OVERLAPS b.vt AS OF DATE '2020-01-01';", "VALID b AS OF DATE '2020-01-01';",
         "INSERT INTO a VALUES (1, PERIOD '[2020-01-01,now)'), (2, PERIOD '[2020-01-01,now)'), (3, PERIOD '[2020-01-01,now)'), (4, PERIOD '[2020-01-01,now)');",
         "UPDATE a SET c1 = c1 WHERE c1 < 100;", "CREATE TABLE c (c1 INT);", "DROP a;"]


def is_refused(environment: dict[str, str], program: str, folder: str, asked: str) -> bool:
    """Whether psql refuses the statement, and prints no record but that of the columns' names."""
    sql = subprocess.run([program, *WORDS], input=(HELD + asked).encode(), capture_output=True, cwd=folder).stdout
    sql = sql[sql.index(b"\n-- " + asked.split(" ")[0].encode(), sql.rindex(b"\\.\n")):]
    head = b"\\set ON_ERROR_STOP on\n\\pset format unaligned\n\\pset tuples_only on\nSET search_path = public, ongoing;\n"
    done = subprocess.run(["psql", "-X", "-q"], input=head + sql, capture_output=True, env=environment)
    if done.returncode == 0 or len(done.stdout.splitlines()) > 1:
        print(f"a server is stopped: {asked}\n{done}")
    return done.returncode != 0 and len(done.stdout.splitlines()) <= 1


def try_stopped(program: str, servers: list[server.Server]) -> bool:
    """A server is stopped while the nodes join; then each statement is refused. Nothing is kept where all run."""
    environment = servers[0].environment()
    with tempfile.TemporaryDirectory() as above:
        folder = above + "/found"
        os.mkdir(folder)
        with open(folder + "/rows.csv", "w", encoding="utf-8") as file:
            file.write("c1,vt\n" + "".join(f'{n % 30},"[2020-01-{n % 28 + 1:02},now)"\n' for n in range(30_000)))
        sql = subprocess.run([program, *WORDS], input=(HELD + ASKED[0]).encode(), capture_output=True, cwd=folder).stdout
        with open(above + "/script.sql", "wb") as file:
            file.write(b"CALL shards.clear();\n" + sql)
        running = subprocess.Popen(["psql", "-X", "-q", "-f", "../script.sql"], stdout=subprocess.PIPE, stderr=subprocess.PIPE, env=environment, cwd=folder)
        for _ in range(1200):
            busy = servers[1].ask("SELECT count(*) FROM pg_stat_activity WHERE query LIKE '%join$1%' AND state = 'active' AND pid <> pg_backend_pid()", "node")
            if busy.strip() != "0" or running.poll() is not None:
                break
            time.sleep(0.1)
        was_running = running.poll() is None
        servers[1].run("pg_ctl", "-D", "data", "-w", "-m", "immediate", "stop")
        out, errors = running.communicate()
        left = servers[0].ask("SELECT to_regclass('public.pairs')") + servers[2].ask("SELECT to_regclass('public.pairs')", "node")
        fine = was_running and running.returncode != 0 and not out and errors and not left.strip()
        if not fine:
            print(f"a server is stopped while nodes join: {was_running} {running.returncode} {out[:200]!r} {errors[:300]!r} {left!r}")
        return all([is_refused(environment, program, folder, asked) for asked in ASKED]) and bool(fine)


def is_pushed(program: str, one: server.Server) -> bool:
    """Whether the nodes join, each in one scan and all at the same time, where the coordinator asks for two tables by their key."""
    with tempfile.TemporaryDirectory() as folder:
        with open(folder + "/rows.csv", "w", encoding="utf-8") as file:
            file.write("c1,vt\n" + "".join(f'{n},"[2020-01-{n % 28 + 1:02},now)"\n' for n in range(5_000)))
        sql = subprocess.run([program, *WORDS], input=HELD.encode(), capture_output=True, cwd=folder).stdout.decode()
        query = "SELECT a.c1, b.vt, a.days * b.days * overlaps(a.vt, b.vt) FROM a JOIN b ON a.c1 = b.c1"
        plan = one.ask(f"CALL shards.clear();\n{sql}\nEXPLAIN (VERBOSE, COSTS OFF) {query};\nCALL shards.clear();")
    fine = len(re.findall(r"Async Foreign Scan\n(?: .*\n)*? *Remote SQL: .* INNER JOIN ", plan)) == COUNT and plan.count("Scan") == COUNT
    if not fine:
        print(f"the nodes do not join:\n{plan}")
    return fine


PACE = """CREATE TABLE lefts (id INT, c1 TEXT, vt PERIOD);
CREATE TABLE rights (id INT, c1 TEXT, vt PERIOD);
IMPORT INTO lefts FROM 'lefts.csv';
IMPORT INTO rights FROM 'rights.csv';
KEEP pairs AS SELECT l.c1, l.id, r.id AS other FROM lefts l JOIN rights r ON l.c1 = r.c1 WHERE l.vt OVERLAPS r.vt;
PRINT SELECT c1, id, other FROM pairs WHERE id < 50 AS OF DATE '2010-01-01';
"""


def write_rows(path: str, count: int, seed: int) -> None:
    """A number, one of as many texts as there are rows, and a period of up to four years within 24, a fifth up to now."""
    rolls = random.Random(seed)
    from pace import day
    with open(path, "w", encoding="utf-8") as file:
        file.write("id,c1,vt\n")
        for number in range(count):
            first, length, sort = rolls.randrange(8760), rolls.randrange(1460), rolls.random() * 10
            end = "now" if sort < 2 else "+" + day(first + length) if sort < 3 else day(first + length)
            file.write(f'{number},k{rolls.randrange(count)},"[{day(first)},{end})"\n')


def processes_of(one: server.Server) -> list[str]:
    """The numbers of a server's processes, its first one first."""
    with open(f"{one.folder}/data/postmaster.pid", encoding="ascii") as file:
        first = file.readline().strip()
    return [first, *subprocess.run(["ps", "-o", "pid=", "--ppid", first], capture_output=True, text=True).stdout.split()]


def seconds_of(one: server.Server) -> float:
    """The processor time that a server has needed, with all of its processes that ended."""
    ticks = 0
    for at, pid in enumerate(processes_of(one)):
        with contextlib.suppress(FileNotFoundError), open(f"/proc/{pid}/stat", encoding="utf-8") as file:
            fields = file.read().rsplit(")", 1)[1].split()
            ticks += sum(map(int, fields[11:15] if at == 0 else fields[11:13]))
    return ticks / os.sysconf("SC_CLK_TCK")


def give_processors(one: server.Server, processors: set[int]) -> None:
    """Lets the server, and each process that it begins from now on, have these processors alone."""
    for pid in processes_of(one):
        with contextlib.suppress(ProcessLookupError):
            os.sched_setaffinity(int(pid), processors)


class Paced:
    """The key join, as it is kept by some servers. The SQL is that of the program for these words."""

    def __init__(self, program: str, words: list[str], folder: str, word: str, servers: list[server.Server]) -> None:
        self.words, self.folder, self.word, self.servers = words, folder, word, servers
        sql = subprocess.run([program, *words], input=PACE.encode(), capture_output=True, cwd=folder).stdout
        loading, self.keeping, self.printing = re.split(rb"(?m)^(?=-- KEEP|-- PRINT)", sql)
        self.head = loading[:loading.index(b"\n-- ")] + b"\n"
        began = time.time()
        self.run(loading)
        print(f"{word}: loaded in {time.time() - began:.1f} s", flush=True)

    def run(self, sql: bytes) -> bytes:
        return subprocess.run(["psql", "-X", "-q", "-v", "ON_ERROR_STOP=1"], input=sql, capture_output=True, check=True, cwd=self.folder,
                              env=self.servers[0].environment()).stdout

    def timed(self, each: str) -> bytes:
        """Keeps the join three times, and prints the time by the clock and by the processors of each server."""
        for _ in range(3):
            before = [seconds_of(one) for one in self.servers]
            began = time.time()
            self.run(self.head + self.keeping)
            took = time.time() - began
            needed = [seconds_of(one) - was for one, was in zip(self.servers, before)]
            print(f"{self.word}, {each}: KEEP {took:.2f} s; of the processors of each server {', '.join(f'{one:.2f}' for one in needed)} s; "
                  f"load {os.getloadavg()[0]:.1f}", flush=True)
            out = self.run(self.head + self.printing)
            self.run(self.head + (b"CALL shards.drop('pairs');" if self.words else b"DROP TABLE pairs;"))
        return out

    def both(self) -> bytes:
        """With all processors for each server; and with one for each, as if each were a machine of one."""
        out = self.timed("all processors for each")
        here = sorted(os.sched_getaffinity(0))
        for at, one in enumerate(self.servers):
            give_processors(one, {here[at % len(here)]})
        return out if out == self.timed("a processor for each") else b""


def pace(program: str, programs: str, count: int) -> bool:
    """Measures the key join on one server, and on three."""
    with tempfile.TemporaryDirectory() as folder:
        for seed, name in enumerate(("lefts", "rights")):
            write_rows(f"{folder}/{name}.csv", count, seed)
        began = time.time()
        wanted = subprocess.run([translated.ONGQ, "run"], input=PACE.encode(), capture_output=True, cwd=folder).stdout
        print(f"ongq: the whole run {time.time() - began:.2f} s, {os.cpu_count()} processors", flush=True)
        with server.Server(programs, True) as alone:
            alone.ask("CREATE EXTENSION ongoing")
            one = Paced(program, [], folder, "one server", [alone]).both()
        with started(programs) as servers:
            three = Paced(program, WORDS, folder, "three servers", servers).both()
    print("the same output" if wanted == one == three else "OTHER OUTPUT")
    return wanted == one == three


def main() -> int:
    program = os.path.realpath(sys.argv[1])
    programs = server.programs()
    if programs is None:
        print("interop/shards: left out, as it is not here: PostgreSQL 15")
        return 0
    if sys.argv[2:3] == ["pace"]:
        return 0 if pace(program, programs, int(sys.argv[3]) if len(sys.argv) > 3 else 1_000_000) else 1
    count = int(sys.argv[2]) if len(sys.argv) > 2 else 200
    first = int(sys.argv[3]) if len(sys.argv) > 3 else 0
    with started(programs) as servers:
        trial, psql = Shards(program, False), Coordinator(servers[0], "postgres")
        for number in range(count):
            trial.one(spread_case(first + number), psql)
            if number % 20 == 19:
                print(f"{number + 1} of {count}: {dict(trial.counts)}", flush=True)
        print(", ".join(f"{count} {what}" for what, count in sorted(trial.counts.items())))
        psql.stop()
        pushed = is_pushed(program, servers[0])
        stopped = try_stopped(program, servers)
        print("a server that is stopped: psql's error, and no answer" if stopped else "a server that is stopped: OTHERWISE")
    return 0 if pushed and stopped and all(what.startswith(("same", "refused as outside")) for what in trial.counts) else 1


if __name__ == "__main__":
    sys.exit(main())
